//! What the library's arrays must hold, by the second program's values and places.

use conformance::cursor::{Cursor, Span};
use conformance::reader::Reading;
use conformance::sample_reader::*;
use conformance::value::*;

use crate::answers::Answer;

/// The counters of the version that has most.
const MOST_COUNTERS: usize = 37;

/// The octets of a flow sample before its packet data: the type word and seven words.
const BEFORE_PACKET: usize = 32;

/// The octets of a gateway entry before its first path segment.
const BEFORE_SEGMENTS: usize = 20;

/// An item that the second program reads at an offset, and what it notes of its place.
pub struct Item<T> {
    /// The values.
    pub value: T,
    /// The offset behind the item.
    pub next: usize,
    /// The item's strings in their order.
    pub strings: Vec<Span>,
}

/// Reads an item at any offset. Past the end it is cut there.
pub fn item_at<T>(octets: &[u8], at: usize, form: Form<T>) -> Result<Item<T>, Answer> {
    let Some(rest) = octets.get(at..) else {
        return Err(Answer::new(1, vec![at as u64]));
    };
    let mut cursor = Cursor::new(rest);
    match form(&mut cursor) {
        Ok(value) => Ok(Item {
            value,
            next: at + cursor.offset(),
            strings: cursor
                .take_strings()
                .into_iter()
                .map(|own| moved(own, at))
                .collect(),
        }),
        Err(refusal) => Err(Answer::new(
            refusal.number(),
            vec![(at + refusal.place) as u64],
        )),
    }
}

/// A place by its offset in octets that begin earlier.
fn moved(place: Span, by: usize) -> Span {
    Span {
        offset: place.offset + by,
        ..place
    }
}

/// The four words of an address, zeros behind a short one.
pub fn address_words(octets: &[u8]) -> [u32; 4] {
    let mut whole = [0; 16];
    whole
        .iter_mut()
        .zip(octets)
        .for_each(|(to, from)| *to = *from);
    let all = u128::from_be_bytes(whole);
    [96, 64, 32, 0].map(|shift| (all >> shift) as u32)
}

/// The same for an address with its type.
pub fn words_of(address: &Address) -> [u32; 4] {
    match address {
        Address::IpV4(octets) => address_words(octets),
        Address::IpV6(octets) => address_words(octets),
    }
}

/// A datagram's nine numbers.
pub fn head_numbers(reading: &Reading) -> Vec<u64> {
    let datagram = &reading.datagram;
    let mut numbers = vec![u64::from(datagram.agent_address.type_number())];
    numbers.extend(words_of(&datagram.agent_address).map(u64::from));
    numbers.extend([datagram.sequence_number, datagram.uptime].map(u64::from));
    numbers.extend([datagram.samples.len() as u64, reading.first_sample as u64]);
    numbers
}

/// A sample's numbers, by its place and its strings.
pub fn sample_numbers(octets: &[u8], sample: &Sample, place: Span, strings: &[Span]) -> Vec<u64> {
    let spans = [place.offset as u64, place.length as u64];
    match sample {
        Sample::Flow(flow) => {
            let header = strings.first().copied().unwrap_or_default();
            let entries = first_entry(octets, place.offset) as u64;
            let mut numbers = vec![1, spans[0], spans[1]];
            numbers.extend(flow_words(flow).map(u64::from));
            numbers.push(packet_type(&flow.packet_data));
            numbers.extend([flow.extended_data.len() as u64, entries]);
            numbers.extend(packet_numbers(&flow.packet_data, header));
            numbers
        }
        Sample::Counters(own) => {
            let words = [own.sequence_number, own.source_id, own.sampling_interval];
            let mut numbers = vec![2, spans[0], spans[1]];
            numbers.extend(words.map(u64::from));
            numbers.extend([own.version.number().into(), own.counters.len() as u64]);
            let zeros = std::iter::repeat(0);
            numbers.extend(
                own.counters
                    .iter()
                    .copied()
                    .chain(zeros)
                    .take(MOST_COUNTERS),
            );
            numbers
        }
    }
}

/// A flow sample's seven words.
pub fn flow_words(flow: &FlowSample) -> [u32; 7] {
    [
        flow.sequence_number,
        flow.source_id,
        flow.sampling_rate,
        flow.sample_pool,
        flow.drops,
        flow.input,
        flow.output,
    ]
}

/// The offset of the first extended entry of the flow sample at an offset: behind the packet data
/// and the count.
fn first_entry(octets: &[u8], at: usize) -> usize {
    let packet = item_at(octets, at + BEFORE_PACKET, read_packet_data);
    packet.map_or(0, |packet| packet.next + 4)
}

fn packet_type(packet: &PacketData) -> u64 {
    match packet {
        PacketData::Header(_) => 1,
        PacketData::Ipv4(_) => 2,
        PacketData::Ipv6(_) => 3,
    }
}

fn packet_numbers(packet: &PacketData, header: Span) -> Vec<u64> {
    match packet {
        PacketData::Header(own) => vec![
            own.protocol.into(),
            own.frame_length.into(),
            header.offset as u64,
            header.length as u64,
        ],
        PacketData::Ipv4(own) => widened(&ipv4_words(own)),
        PacketData::Ipv6(own) => widened(&ipv6_words(own)),
    }
}

/// Words as numbers of 64 bits.
pub fn widened(words: &[u32]) -> Vec<u64> {
    words.iter().copied().map(u64::from).collect()
}

/// The words of IPv4 data.
pub fn ipv4_words(own: &SampledIpv4) -> Vec<u32> {
    let mut words = vec![own.length, own.protocol];
    words.extend([own.src_ip, own.dst_ip].map(u32::from_be_bytes));
    words.extend([own.src_port, own.dst_port, own.tcp_flags, own.tos]);
    words
}

/// The words of IPv6 data.
pub fn ipv6_words(own: &SampledIpv6) -> Vec<u32> {
    let mut words = vec![own.length, own.protocol];
    words.extend(address_words(&own.src_ip));
    words.extend(address_words(&own.dst_ip));
    words.extend([own.src_port, own.dst_port, own.tcp_flags, own.priority]);
    words
}

/// The numbers of the extended entry at an offset, by the offset behind it and its strings.
pub fn extended_numbers(
    at: usize,
    entry: &ExtendedData,
    next: usize,
    strings: &[Span],
) -> Vec<u64> {
    let mut numbers = vec![extended_type(entry), next as u64];
    match entry {
        ExtendedData::Switch(own) => numbers.extend(widened(&switch_words(own))),
        ExtendedData::Router(own) => {
            numbers.push(own.nexthop.type_number().into());
            numbers.extend(words_of(&own.nexthop).map(u64::from));
            numbers.extend([own.src_mask, own.dst_mask].map(u64::from));
        }
        ExtendedData::Gateway(own) => numbers.extend(gateway_numbers(at, own)),
        ExtendedData::User(_) => numbers.extend(span_numbers(strings)),
        ExtendedData::Url(own) => {
            numbers.push(own.direction.number().into());
            numbers.extend(span_numbers(strings));
        }
    }
    numbers
}

fn extended_type(entry: &ExtendedData) -> u64 {
    match entry {
        ExtendedData::Switch(_) => 1,
        ExtendedData::Router(_) => 2,
        ExtendedData::Gateway(_) => 3,
        ExtendedData::User(_) => 4,
        ExtendedData::Url(_) => 5,
    }
}

/// The words of a switch entry.
pub fn switch_words(own: &ExtendedSwitch) -> [u32; 4] {
    [
        own.src_vlan,
        own.src_priority,
        own.dst_vlan,
        own.dst_priority,
    ]
}

fn gateway_numbers(at: usize, own: &ExtendedGateway) -> Vec<u64> {
    let segments = at.wrapping_add(BEFORE_SEGMENTS);
    let lengths = own
        .dst_as_path
        .iter()
        .map(|own| 8 + 4 * own.numbers().len());
    let communities = segments.wrapping_add(lengths.sum::<usize>() + 4);
    vec![
        own.r#as.into(),
        own.src_as.into(),
        own.src_peer_as.into(),
        own.dst_as_path.len() as u64,
        segments as u64,
        own.communities.len() as u64,
        communities as u64,
        own.localpref.into(),
    ]
}

/// Offset and length of each string.
fn span_numbers(strings: &[Span]) -> impl Iterator<Item = u64> + '_ {
    strings
        .iter()
        .flat_map(|own| [own.offset as u64, own.length as u64])
}

/// The numbers of the path segment at an offset.
pub fn segment_numbers(at: usize, segment: &AsPath, next: usize) -> Vec<u64> {
    let numbers = [next, segment.numbers().len(), at.wrapping_add(8)].map(|number| number as u64);
    let mut all = vec![u64::from(segment.type_number())];
    all.extend(numbers);
    all
}
