//! Random flow samples, most of them with packets that the attributes look
//! into.

use crate::attributes::{ETHERNET_IPV4, LEAST_IPV4_OCTETS, TCP, UDP};
use crate::encoder::encode_sample;
use crate::grammar::MAX_HEADER_SIZE;
use crate::packets::*;
use crate::parts;
use crate::random::Random;
use crate::random_damage::several_damages;
use crate::value::*;

/// A random flow sample.
pub fn flow_sample(random: &mut Random) -> FlowSample {
    let packet_data = packet_data(random);
    let entries = random.below(8) / 6;
    FlowSample {
        sequence_number: random.word(),
        source_id: random.word(),
        sample_pool: random.word(),
        input: interface(random),
        output: interface(random),
        extended_data: (0..entries).map(|_| parts::switch(random)).collect(),
        ..flow_of(packet_data)
    }
}

/// The octets of a flow sample.
pub fn octets_of_flow(flow: &FlowSample) -> Vec<u8> {
    encode_sample(&Sample::Flow(flow.clone())).octets
}

/// Octets that are nearly a flow sample: cut, longer, with another word, with
/// several faults, or of a counter sample.
pub fn no_flow_sample(random: &mut Random) -> Vec<u8> {
    let whole = encode_sample(&Sample::Flow(flow_sample(random)));
    let mut octets = whole.octets.clone();
    match random.below(5) {
        0 => octets.truncate(random.below(octets.len())),
        1 => {
            let more = 1 + random.below(8);
            octets.extend(random.octets(more));
        }
        2 => {
            let at = [3, 35][random.below(2)];
            octets[at] = 4 + random.below(250) as u8;
        }
        3 => octets = several_damages(random, &whole),
        _ => {
            let version = crate::counters::CountersVersion::Vlan;
            return encode_sample(&parts::counters(random, version)).octets;
        }
    }
    octets
}

/// Few small numbers, or any word.
fn interface(random: &mut Random) -> u32 {
    match random.below(3) {
        0 => random.word(),
        _ => random.below(4) as u32,
    }
}

fn packet_data(random: &mut Random) -> PacketData {
    match random.below(10) {
        0 => parts::ipv4(random),
        1 => parts::ipv6(random),
        2 => {
            let length = random.below(60);
            let protocol = parts::header_protocol(random.below(13));
            parts::header(random, protocol, length)
        }
        _ => packet_header(random),
    }
}

/// Header data with an IPv4 packet, sometimes cut, changed in one to four
/// places, or under another protocol.
fn packet_header(random: &mut Random) -> PacketData {
    let carrier = CARRIERS[random.below(CARRIERS.len())];
    let mut header = carried(carrier, &packet(random));
    header.truncate(MAX_HEADER_SIZE as usize);
    match random.below(8) {
        0 => cut(random, &mut header, carrier),
        1 => change_one(random, &mut header),
        2 => change_several(random, &mut header, carrier),
        _ => {}
    }
    let protocol = match random.below(12) {
        0 => parts::header_protocol(random.below(13)),
        _ => carrier,
    };
    header_data(protocol, header)
}

/// Where the IPv4 packet begins that a header protocol carries.
fn packet_begin(carrier: u32) -> usize {
    carried(carrier, &[]).len()
}

/// Cuts the octets anywhere, or about the least header's or the header's end.
fn cut(random: &mut Random, header: &mut Vec<u8>, carrier: u32) {
    let begin = packet_begin(carrier);
    let words = header.get(begin).map_or(5, |octet| octet & 15);
    let ends = [
        random.below(header.len() + 1),
        begin + LEAST_IPV4_OCTETS,
        begin + 4 * usize::from(words),
    ];
    let end = ends[random.below(ends.len())];
    header.truncate((end + random.below(6)).saturating_sub(1));
}

/// Changes two to four of the places that decide what a packet tells, half of
/// the time in one octet; one of the changes may be a cut.
fn change_several(random: &mut Random, header: &mut Vec<u8>, carrier: u32) {
    let begin = packet_begin(carrier);
    let places = [12, 13, begin, begin + 9];
    for turn in random.several(places.len()) {
        if random.below(5) == 0 {
            cut(random, header, carrier);
        } else if let Some(octet) = header.get_mut(places[turn]) {
            *octet ^= 1 << random.below(8);
        }
    }
}

/// Changes one of the first octets, or of the two with the Ethernet type.
fn change_one(random: &mut Random, header: &mut [u8]) {
    let at = match random.below(3) {
        0 => random.below(header.len()),
        _ => [12, 13, 0, 14][random.below(4)],
    };
    if let Some(octet) = header.get_mut(at) {
        *octet ^= 1 << random.below(8);
    }
}

/// Any IP protocol: half of the time one with ports, at times one that differs
/// from these in one bit.
fn ip_protocol(random: &mut Random) -> u8 {
    let with_ports = [TCP, UDP][random.below(2)];
    match random.below(8) {
        0..=2 => random.hyper() as u8,
        3 => with_ports ^ 1 << random.below(8),
        _ => with_ports,
    }
}

/// An IPv4 packet with random addresses and ports.
fn packet(random: &mut Random) -> Vec<u8> {
    let form = Ipv4Form {
        version: [4, 4, 4, 4, 4, 4, 4, 4, 4, 4, 6, 5][random.below(12)],
        words: [5, 5, 5, 5, 5, 6, 4, random.below(16) as u8][random.below(8)],
        protocol: ip_protocol(random),
        behind: [0, 1, 2, 3, 4, 4, 4, 5, 8, 20][random.below(10)],
    };
    let mut octets = form.octets();
    let (fixed, behind) = (12..20, form.header_length()..form.header_length() + 4);
    for at in fixed.chain(behind) {
        if let Some(octet) = octets.get_mut(at) {
            *octet = random.hyper() as u8;
        }
    }
    octets
}

/// A frame of the IPv4 type around random octets.
pub fn frame_of_anything(random: &mut Random) -> PacketData {
    let length = random.below(80);
    let header = ethernet(ETHERNET_IPV4, &random.octets(length));
    header_data(1, header)
}
