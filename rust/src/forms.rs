//! Every form from its values, written to the front of a lent buffer. Each function answers the
//! length written; a refusal (22 where a value is not in the grammar, then 20 where the buffer is
//! too short) leaves the buffer as it was. Octets behind the form stay.
use crate::address;
use crate::calls;
use crate::extended::{Direction, Router, SegmentKind, Switch};
use crate::packet::{Ipv4Data, Ipv6Data, SampledHeader};
use crate::refusal::WriteRefusal;
use crate::sample::{CounterWords, FlowWords};
use crate::writer::length;

fn write(
    kind: u32,
    words: &[u32],
    first: &[u8],
    second: &[u8],
    buffer: &mut [u8],
) -> Result<usize, WriteRefusal> {
    let mut out = [0];
    let number = calls::write(kind, words, first, second, buffer, &mut out);
    length(number, out)
}

/// Writes packet data of type 1, a sampled header, with its type word. Refuses a protocol outside 1
/// to 13 and more than 256 octets.
pub fn write_header(buffer: &mut [u8], header: &SampledHeader<'_>) -> Result<usize, WriteRefusal> {
    write(
        1,
        &[header.protocol, header.frame_length],
        header.octets,
        &[],
        buffer,
    )
}

/// Writes packet data of type 2, IPv4, with their type word.
pub fn write_ipv4(buffer: &mut [u8], data: &Ipv4Data) -> Result<usize, WriteRefusal> {
    write(2, &data.words(), &[], &[], buffer)
}

/// Writes packet data of type 3, IPv6, with their type word.
pub fn write_ipv6(buffer: &mut [u8], data: &Ipv6Data) -> Result<usize, WriteRefusal> {
    write(3, &data.words(), &[], &[], buffer)
}

/// Writes an extended entry of type 1, switch, with its type word.
pub fn write_switch(buffer: &mut [u8], entry: &Switch) -> Result<usize, WriteRefusal> {
    let words = [
        entry.source_vlan,
        entry.source_priority,
        entry.destination_vlan,
        entry.destination_priority,
    ];
    write(11, &words, &[], &[], buffer)
}

/// Writes an extended entry of type 2, router, with its type word.
pub fn write_router(buffer: &mut [u8], entry: &Router) -> Result<usize, WriteRefusal> {
    let (kind, [a, b, c, d]) = address::to_words(entry.next_hop);
    write(
        12,
        &[kind, a, b, c, d, entry.source_mask, entry.destination_mask],
        &[],
        &[],
        buffer,
    )
}

/// The values of a gateway entry. The path's segments come as octets that [`write_segment`] wrote,
/// one behind the other.
#[derive(Clone, Copy, Debug, PartialEq, Eq)]
pub struct GatewayForm<'a> {
    /// the router's autonomous system
    pub router_as: u32,
    /// the source's autonomous system
    pub source_as: u32,
    /// that of the source's peer
    pub source_peer_as: u32,
    /// how many segments the octets are
    pub segment_count: u32,
    /// the octets of the segments
    pub segments: &'a [u8],
    /// the communities of the route
    pub communities: &'a [u32],
    /// the local preference of the route
    pub local_preference: u32,
}

/// Writes an extended entry of type 3, gateway, with its type word. Refuses octets that are not
/// exactly so many segments.
pub fn write_gateway(buffer: &mut [u8], entry: &GatewayForm<'_>) -> Result<usize, WriteRefusal> {
    let mut words = vec![
        entry.router_as,
        entry.source_as,
        entry.source_peer_as,
        entry.segment_count,
        entry.local_preference,
    ];
    words.extend_from_slice(entry.communities);
    write(13, &words, entry.segments, &[], buffer)
}

/// Writes an extended entry of type 4, user, with its type word: the users of the source and of the
/// destination.
pub fn write_user(
    buffer: &mut [u8],
    source: &[u8],
    destination: &[u8],
) -> Result<usize, WriteRefusal> {
    write(14, &[], source, destination, buffer)
}

/// Writes an extended entry of type 5, URL, with its type word.
pub fn write_url(
    buffer: &mut [u8],
    direction: Direction,
    url: &[u8],
) -> Result<usize, WriteRefusal> {
    let direction = match direction {
        Direction::Source => 1,
        Direction::Destination => 2,
    };
    write(15, &[direction], url, &[], buffer)
}

/// Writes a path segment.
pub fn write_segment(
    buffer: &mut [u8],
    kind: SegmentKind,
    numbers: &[u32],
) -> Result<usize, WriteRefusal> {
    let mut words = vec![match kind {
        SegmentKind::Set => 1,
        SegmentKind::Sequence => 2,
    }];
    words.extend_from_slice(numbers);
    write(16, &words, &[], &[], buffer)
}

/// Writes a flow sample with its type word: its words, its packet data and so many extended
/// entries, both as octets that the functions of this crate wrote. Refuses octets that are not
/// exactly one packet data, or not exactly so many entries.
///
/// ```
/// use troutgable::{read_sample, write_flow, write_header, FlowWords, Sample, SampledHeader};
///
/// let mut packet = [0; 300];
/// let n = write_header(&mut packet, &SampledHeader { protocol: 11, frame_length: 64, octets: b"\x45\0\0" })?;
/// let mut sample = [0; 400];
/// let words = FlowWords { sequence_number: 7, ..FlowWords::default() };
/// let end = write_flow(&mut sample, &words, &packet[..n], 0, &[])?;
/// let Ok(Sample::Flow(flow)) = read_sample(&sample[..end], 0) else { panic!() };
/// assert_eq!(flow.words, words);
/// # Ok::<(), troutgable::WriteRefusal>(())
/// ```
pub fn write_flow(
    buffer: &mut [u8],
    words: &FlowWords,
    packet: &[u8],
    extended_count: u32,
    extended: &[u8],
) -> Result<usize, WriteRefusal> {
    let words = words.with_count(extended_count);
    write(21, &words, packet, extended, buffer)
}

/// Writes a counter sample with its type word: its words, and the counters of its version in the
/// RFC's order. Refuses a version outside 1 to 7, another number of counters than the version has,
/// and a counter that is too large for its field.
pub fn write_counters(
    buffer: &mut [u8],
    words: &CounterWords,
    counters: &[u64],
) -> Result<usize, WriteRefusal> {
    let mut out = [0];
    let number = calls::write_counters(words.words(), counters, buffer, &mut out);
    length(number, out)
}
