//! The reader's refusals: a number and the offset of the first bad item.

use std::fmt;

/// What is wrong; the discriminant is the refusal's number.
#[derive(Clone, Copy, Debug, PartialEq, Eq, PartialOrd, Ord)]
pub enum Fault {
    /// Fewer octets are left than the item has.
    Missing = 1,
    /// The version is not 4.
    Version = 2,
    /// The address type is not 1 or 2.
    AddressType = 3,
    /// The sample type is not 1 or 2.
    SampleType = 4,
    /// The packet data type is not 1 to 3.
    PacketDataType = 5,
    /// The header protocol is not 1 to 13.
    HeaderProtocol = 6,
    /// The header length is over 256.
    HeaderLength = 7,
    /// The extended data type is not 1 to 5.
    ExtendedType = 8,
    /// The path segment type is not 1 or 2.
    SegmentType = 9,
    /// The URL direction is not 1 or 2.
    UrlDirection = 10,
    /// The counters version is not 1 to 7.
    CountersVersion = 11,
    /// A padding octet is not zero.
    Padding = 12,
    /// There are octets after the last sample.
    Trailing = 13,
    /// The datagram has more than 65,507 octets.
    TooLong = 14,
}

impl Fault {
    /// The refusal number.
    pub fn number(self) -> u32 {
        self as u32
    }
}

/// A refusal of the reader.
#[derive(Clone, Copy, Debug, PartialEq, Eq)]
pub struct Refusal {
    /// What is wrong.
    pub fault: Fault,
    /// The offset in the datagram of the first bad item.
    pub place: usize,
}

impl Refusal {
    /// The refusal of this fault at this place.
    pub fn new(fault: Fault, place: usize) -> Refusal {
        Refusal { fault, place }
    }

    /// The refusal number.
    pub fn number(&self) -> u32 {
        self.fault.number()
    }
}

impl fmt::Display for Refusal {
    fn fmt(&self, out: &mut fmt::Formatter) -> fmt::Result {
        write!(out, "refused {} at {}", self.number(), self.place)
    }
}
