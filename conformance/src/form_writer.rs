//! Writers of every form of the grammar, from values into a lent buffer: 22
//! where a value is not in the grammar, then 20 where the buffer is too short.

use crate::cases::octets_of;
use crate::encoder::{encode_extended_data, encode_packet_data};
use crate::given::*;
use crate::grammar;
use crate::sample_reader::read_path_segment;
use crate::value::*;

/// The new end would pass the limit, or the values the buffer.
pub const NO_ROOM: u32 = 20;

/// Puts the octets at the beginning of the buffer (20).
pub fn put(buffer: &mut [u8], octets: &[u8]) -> Result<usize, u32> {
    let room = buffer.get_mut(..octets.len()).ok_or(NO_ROOM)?;
    room.copy_from_slice(octets);
    Ok(octets.len())
}

/// Writes a flow sample: 22, then 20.
pub fn write_flow(
    buffer: &mut [u8],
    words: [u32; 7],
    packet_octets: &[u8],
    entries: u32,
    entry_octets: &[u8],
) -> Result<usize, u32> {
    let flow = GivenFlow {
        words,
        packet_octets,
        entries,
        entry_octets,
    };
    put(buffer, &flow.octets()?)
}

/// Writes a counter sample: 22, then 20.
pub fn write_counters(
    buffer: &mut [u8],
    sequence: u32,
    source: u32,
    interval: u32,
    version: u32,
    numbers: &[u64],
) -> Result<usize, u32> {
    let counters = GivenCounters {
        sequence,
        source,
        interval,
        version,
        numbers,
    };
    put(buffer, &counters.octets()?)
}

/// Writes packet data with header octets: 22 for a protocol not 1 to 13 or
/// over 256 octets, then 20.
pub fn write_header(
    buffer: &mut [u8],
    protocol: u32,
    frame_length: u32,
    header: &[u8],
) -> Result<usize, u32> {
    let protocols = grammar::FIRST_HEADER_PROTOCOL..=grammar::LAST_HEADER_PROTOCOL;
    demand(protocols.contains(&protocol))?;
    demand(amount(header.len())? <= grammar::MAX_HEADER_SIZE)?;
    let header = SampledHeader {
        protocol,
        frame_length,
        header: header.to_vec(),
    };
    put(
        buffer,
        &encode_packet_data(&PacketData::Header(header)).octets,
    )
}

/// Writes IPv4 packet data, whose values are all free: 20.
pub fn write_ipv4(buffer: &mut [u8], ipv4: &SampledIpv4) -> Result<usize, u32> {
    put(
        buffer,
        &encode_packet_data(&PacketData::Ipv4(ipv4.clone())).octets,
    )
}

/// Writes IPv6 packet data, whose values are all free: 20.
pub fn write_ipv6(buffer: &mut [u8], ipv6: &SampledIpv6) -> Result<usize, u32> {
    put(
        buffer,
        &encode_packet_data(&PacketData::Ipv6(ipv6.clone())).octets,
    )
}

/// Writes an entry of extended data (20).
fn put_entry(buffer: &mut [u8], entry: &ExtendedData) -> Result<usize, u32> {
    put(buffer, &encode_extended_data(entry).octets)
}

/// Writes switch data, whose values are all free: 20.
pub fn write_switch(buffer: &mut [u8], switch: &ExtendedSwitch) -> Result<usize, u32> {
    put_entry(buffer, &ExtendedData::Switch(switch.clone()))
}

/// Writes router data: 22 for the next hop's type, then 20.
pub fn write_router(
    buffer: &mut [u8],
    nexthop: &GivenAddress,
    src_mask: u32,
    dst_mask: u32,
) -> Result<usize, u32> {
    let nexthop = nexthop.address().ok_or(NOT_IN_GRAMMAR)?;
    let router = ExtendedRouter {
        nexthop,
        src_mask,
        dst_mask,
    };
    put_entry(buffer, &ExtendedData::Router(router))
}

/// Writes gateway data: 22 unless the octets are exactly so many path
/// segments, then 20. The three words are the autonomous systems of router,
/// source and source peer.
pub fn write_gateway(
    buffer: &mut [u8],
    words: [u32; 3],
    segments: u32,
    segment_octets: &[u8],
    communities: &[u32],
    local_preference: u32,
) -> Result<usize, u32> {
    demand(are_exactly(segment_octets, segments, read_path_segment))?;
    let octets = [
        &octets_of(&[grammar::GATEWAY]),
        &octets_of(&words),
        &octets_of(&[segments]),
        segment_octets,
        &octets_of(&[amount(communities.len())?]),
        &octets_of(communities),
        &octets_of(&[local_preference]),
    ];
    put(buffer, &octets.concat())
}

/// Writes a path segment: 22 for a type not 1 or 2, then 20.
pub fn write_segment(buffer: &mut [u8], kind: u32, numbers: &[u32]) -> Result<usize, u32> {
    demand(kind == grammar::AS_SET || kind == grammar::AS_SEQUENCE)?;
    let head = octets_of(&[kind, amount(numbers.len())?]);
    put(buffer, &[head, octets_of(numbers)].concat())
}

/// Writes user data: 20, for strings of all lengths are in the grammar.
pub fn write_user(buffer: &mut [u8], src_user: &[u8], dst_user: &[u8]) -> Result<usize, u32> {
    amount(src_user.len())?;
    amount(dst_user.len())?;
    let user = ExtendedUser {
        src_user: src_user.to_vec(),
        dst_user: dst_user.to_vec(),
    };
    put_entry(buffer, &ExtendedData::User(user))
}

/// Writes URL data: 22 for a direction not 1 or 2, then 20.
pub fn write_url(buffer: &mut [u8], direction: u32, url: &[u8]) -> Result<usize, u32> {
    let direction = match direction {
        grammar::SRC => UrlDirection::Src,
        grammar::DST => UrlDirection::Dst,
        _ => return Err(NOT_IN_GRAMMAR),
    };
    amount(url.len())?;
    let url = ExtendedUrl {
        direction,
        url: url.to_vec(),
    };
    put_entry(buffer, &ExtendedData::Url(url))
}
