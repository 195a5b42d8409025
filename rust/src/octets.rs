//! Parts of octets by an offset and a length.

/// So many octets from an offset; empty where they are not all there.
pub(crate) fn part(octets: &[u8], at: u64, length: u64) -> &[u8] {
    let at = at as usize;
    let Some(end) = at.checked_add(length as usize) else {
        return &[];
    };
    octets.get(at..end).unwrap_or(&[])
}

/// Big-endian words one behind the other, as the communities of a gateway and the numbers of a path
/// segment are.
#[derive(Clone, Debug, PartialEq, Eq)]
pub struct Words<'a> {
    octets: &'a [u8],
}

impl<'a> Words<'a> {
    pub(crate) fn new(octets: &'a [u8], at: u64, count: u64) -> Words<'a> {
        Words {
            octets: part(octets, at, count.saturating_mul(4)),
        }
    }
}

impl Iterator for Words<'_> {
    type Item = u32;

    fn next(&mut self) -> Option<u32> {
        let (word, rest) = self.octets.split_first_chunk::<4>()?;
        self.octets = rest;
        Some(u32::from_be_bytes(*word))
    }

    fn size_hint(&self) -> (usize, Option<usize>) {
        let left = self.octets.len() / 4;
        (left, Some(left))
    }
}

impl ExactSizeIterator for Words<'_> {}
