//! Captures: records one behind the other, each a mark, a two-octet length
//! and a datagram of that length.

use crate::grammar::MAX_DATAGRAM_SIZE;

/// The first two octets of a record.
pub const MARK: [u8; 2] = [0x73, 0x46];

/// The octets of a record before its datagram.
pub const HEAD_OCTETS: usize = 4;

/// The head of a record: the mark, and this length. A length that does not
/// fit into two octets is written as the greatest that does.
pub fn head(length: usize) -> [u8; HEAD_OCTETS] {
    let [first, second] = MARK;
    let [high, low] = u16::try_from(length).unwrap_or(u16::MAX).to_be_bytes();
    [first, second, high, low]
}

/// The record of a datagram.
pub fn record(datagram: &[u8]) -> Vec<u8> {
    [&head(datagram.len()), datagram].concat()
}

/// The capture of these datagrams.
pub fn capture_of<'a>(datagrams: impl IntoIterator<Item = &'a [u8]>) -> Vec<u8> {
    datagrams.into_iter().flat_map(record).collect()
}

/// The datagram of the first record and the octets behind it; nothing where
/// the mark is wrong, the length is over 65,507, or octets are missing.
pub fn first_datagram(capture: &[u8]) -> Option<(&[u8], &[u8])> {
    let (&[first, second, high, low], rest) = capture.split_first_chunk::<HEAD_OCTETS>()?;
    let length = usize::from(u16::from_be_bytes([high, low]));
    if [first, second] != MARK || length > MAX_DATAGRAM_SIZE {
        return None;
    }
    rest.split_at_checked(length)
}
