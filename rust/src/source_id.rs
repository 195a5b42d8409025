//! The source of samples.
use std::fmt;

/// A source id: the kind of the source in the top octet, its index in the low three.
///
/// ```
/// let source = troutgable::SourceId(0x0100_0064);
/// assert_eq!((source.kind(), source.index()), (1, 100));
/// assert_eq!(source.to_string(), "1.100");
/// ```
#[derive(Clone, Copy, Debug, Default, PartialEq, Eq, PartialOrd, Ord, Hash)]
pub struct SourceId(
    /// the whole word
    pub u32,
);

impl SourceId {
    /// 0 for an interface, 1 for a VLAN, 2 for an entity; others are free.
    pub fn kind(self) -> u32 {
        self.0 >> 24
    }

    /// The index of the source among those of its kind.
    pub fn index(self) -> u32 {
        self.0 & 0x00ff_ffff
    }
}

/// Kind, a dot, index.
impl fmt::Display for SourceId {
    fn fmt(&self, f: &mut fmt::Formatter<'_>) -> fmt::Result {
        write!(f, "{}.{}", self.kind(), self.index())
    }
}
