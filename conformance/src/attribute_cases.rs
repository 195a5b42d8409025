//! Situations of the attributes, written by hand: octets, and the values that
//! the scope and its readings state for them.

use crate::attributes::{Attributes, Peers, ETHERNET, ETHERNET_IPV4, IPV4, PEER_IPV4, PEER_IPV6};
use crate::cases::octets_of;
use crate::encoder::encode_sample;
use crate::grammar::{FIRST_HEADER_PROTOCOL, LAST_HEADER_PROTOCOL};
use crate::packets::*;
use crate::value::*;

/// A situation of the attributes.
#[derive(Clone, Debug, PartialEq, Eq)]
pub struct AttributeCase {
    /// What it is about.
    pub words: String,
    /// The octets that should be a flow sample.
    pub octets: Vec<u8>,
    /// The values stated; nothing where the octets are no flow sample.
    pub stated: Option<Attributes>,
}

/// All situations.
pub fn attribute_cases() -> Vec<AttributeCase> {
    [
        ip_data_cases(),
        lengths_of_samples(),
        forms_of_packets(),
        protocols_of_packets(),
        protocols_near_ports(),
        first_octets(),
        header_lengths_in_20_octets(),
        versions_of_packets(),
        header_lengths_of_packets(),
        ethernet_types(),
        header_protocols(),
        read_both_ways(),
        fields_passed_over(),
        no_flow_samples(),
        long_samples(),
    ]
    .concat()
}

/// The octets, and the packet's values stated for them.
fn case(words: String, octets: Vec<u8>, peers: Peers) -> AttributeCase {
    let stated = Attributes {
        source_interface: INPUT,
        dest_interface: OUTPUT,
        peers,
    };
    AttributeCase {
        words,
        octets,
        stated: Some(stated),
    }
}

/// Header data of this protocol, and the packet's values stated for them.
fn header_case(words: String, protocol: u32, header: Vec<u8>, peers: Peers) -> AttributeCase {
    case(words, header_sample(protocol, header), peers)
}

/// What a packet of this form tells where it is whole.
fn told(form: Ipv4Form) -> Peers {
    if form.version != 4 || form.words < 5 {
        return Peers::default();
    }
    let ports = (form.protocol == 6 || form.protocol == 17) && form.behind >= 4;
    Peers {
        peer_type: PEER_IPV4,
        source_address: SOURCE,
        dest_address: DEST,
        protocol: form.protocol.into(),
        source_port: if ports { SOURCE_PORT } else { 0 },
        dest_port: if ports { DEST_PORT } else { 0 },
    }
}

/// IPv4 and IPv6 data: whole words, whatever the protocol.
fn ip_data_cases() -> Vec<AttributeCase> {
    let words = [0, 1, 6, 17, 0xffff, 0x0001_0006, u32::MAX];
    let both = |word: u32| [ipv4_case(word), ipv6_case(word)];
    words.into_iter().flat_map(both).collect()
}

fn ipv4_case(protocol: u32) -> AttributeCase {
    let data = PacketData::Ipv4(SampledIpv4 {
        length: 40,
        protocol,
        src_ip: SOURCE.to_be_bytes(),
        dst_ip: DEST.to_be_bytes(),
        src_port: 0x0001_0050,
        dst_port: 0xffff_ffff,
        tcp_flags: 2,
        tos: 8,
    });
    let peers = Peers {
        peer_type: PEER_IPV4,
        source_address: SOURCE,
        dest_address: DEST,
        protocol,
        source_port: 0x0001_0050,
        dest_port: 0xffff_ffff,
    };
    case(
        format!("IPv4 data, protocol {protocol}"),
        sample_octets(data),
        peers,
    )
}

fn ipv6_case(protocol: u32) -> AttributeCase {
    let data = PacketData::Ipv6(SampledIpv6 {
        length: 60,
        protocol,
        src_ip: [0x20; 16],
        dst_ip: [0xfd; 16],
        src_port: 0x8000_0000,
        dst_port: 53,
        tcp_flags: 16,
        priority: 1,
    });
    let peers = Peers {
        peer_type: PEER_IPV6,
        source_address: 0,
        dest_address: 0,
        protocol,
        source_port: 0x8000_0000,
        dest_port: 53,
    };
    case(
        format!("IPv6 data, protocol {protocol}"),
        sample_octets(data),
        peers,
    )
}

/// A TCP packet of which only the first octets are sampled, every length.
fn lengths_of_samples() -> Vec<AttributeCase> {
    let mut cases = Vec::new();
    for protocol in CARRIERS {
        let whole = carried(protocol, &Ipv4Form::tcp(8).octets());
        for length in 0..=whole.len() {
            let before = if protocol == ETHERNET { 14 } else { 0 };
            let peers = match length.checked_sub(before + 20) {
                Some(behind) => told(Ipv4Form::tcp(behind)),
                None => Peers::default(),
            };
            let words = format!("header protocol {protocol}, {length} octets");
            let header = whole.iter().copied().take(length).collect();
            cases.push(header_case(words, protocol, header, peers));
        }
    }
    cases
}

/// A packet of this form, whole, in header data of this protocol.
fn whole_packet(protocol: u32, form: Ipv4Form) -> AttributeCase {
    let words = format!("header protocol {protocol}, {form:?}");
    let header = carried(protocol, &form.octets());
    header_case(words, protocol, header, told(form))
}

/// Header lengths 16, 20, 24 and 60 with 0 to 5 octets behind, for TCP, UDP
/// and ICMP.
fn forms_of_packets() -> Vec<AttributeCase> {
    let mut cases = Vec::new();
    for protocol in CARRIERS {
        for words in [4, 5, 6, 15] {
            for ip_protocol in [6, 17, 1] {
                for behind in 0..=5 {
                    let form = Ipv4Form {
                        version: 4,
                        words,
                        protocol: ip_protocol,
                        behind,
                    };
                    cases.push(whole_packet(protocol, form));
                }
            }
        }
    }
    cases
}

/// Every IP protocol with four octets behind the header: 6 and 17 have ports.
fn protocols_of_packets() -> Vec<AttributeCase> {
    let mut cases = Vec::new();
    for carrier in CARRIERS {
        for protocol in 0..=u8::MAX {
            let form = Ipv4Form {
                protocol,
                ..Ipv4Form::tcp(4)
            };
            cases.push(whole_packet(carrier, form));
        }
    }
    cases
}

/// The protocols with ports, and others that differ from them in one bit,
/// with 0 to 3 octets behind the header and with options before the ports.
fn protocols_near_ports() -> Vec<AttributeCase> {
    let near = |protocol: u8| (0..8).map(move |bit| protocol ^ 1 << bit);
    let near: Vec<u8> = near(6).chain(near(17)).chain([6, 17, 23, 0]).collect();
    let mut cases = Vec::new();
    for (words, behind) in [(5, 0), (5, 1), (5, 2), (5, 3), (7, 4), (15, 9)] {
        for &protocol in &near {
            let form = Ipv4Form {
                version: 4,
                words,
                protocol,
                behind,
            };
            cases.push(whole_packet(IPV4, form));
        }
    }
    cases
}

/// Every first octet, with 64 octets there: only 45 to 4f begin a packet.
fn first_octets() -> Vec<AttributeCase> {
    let mut cases = Vec::new();
    for first in 0..=u8::MAX {
        let (version, words) = (first >> 4, first & 15);
        let form = Ipv4Form {
            version,
            words,
            ..Ipv4Form::tcp(4)
        };
        // Octets behind a short header are those of a longer one.
        let mut header = form.octets();
        if words < 5 {
            let longest = Ipv4Form { words: 15, ..form };
            header = longest.octets();
            header[0] = first;
        }
        let words = format!("first octet {first:02x}");
        cases.push(header_case(words, IPV4, header, told(form)));
    }
    cases
}

/// Every header length with exactly 20 octets there: 5 only is present. With
/// 19 none is.
fn header_lengths_in_20_octets() -> Vec<AttributeCase> {
    let mut cases = Vec::new();
    for protocol in CARRIERS {
        for words in 0..16 {
            let (form, longest) = (
                Ipv4Form::tcp(0),
                Ipv4Form {
                    words: 15,
                    ..Ipv4Form::tcp(0)
                },
            );
            let mut packet = longest.octets();
            packet[0] = 0x40 | words;
            for length in [20, 19] {
                packet.truncate(length);
                let whole = words == 5 && length == 20;
                let peers = if whole { told(form) } else { Peers::default() };
                let text = format!("header protocol {protocol}, length {words}, {length} octets");
                cases.push(header_case(
                    text,
                    protocol,
                    carried(protocol, &packet),
                    peers,
                ));
            }
        }
    }
    cases
}

/// Every version nibble.
fn versions_of_packets() -> Vec<AttributeCase> {
    let mut cases = Vec::new();
    for protocol in CARRIERS {
        for version in 0..16 {
            let form = Ipv4Form {
                version,
                ..Ipv4Form::tcp(4)
            };
            cases.push(whole_packet(protocol, form));
        }
    }
    cases
}

/// Every header length: with one octet less than the header says, with all of
/// them, and for the short ones with more octets behind.
fn header_lengths_of_packets() -> Vec<AttributeCase> {
    let mut cases = Vec::new();
    for protocol in CARRIERS {
        for words in 0..16 {
            let form = Ipv4Form {
                words,
                ..Ipv4Form::tcp(0)
            };
            let more = Ipv4Form { behind: 40, ..form };
            cases.extend([whole_packet(protocol, form), whole_packet(protocol, more)]);
            if words > 0 {
                cases.push(cut_packet(protocol, form));
            }
        }
    }
    cases
}

/// A packet of this form whose header lacks its last octet.
fn cut_packet(protocol: u32, form: Ipv4Form) -> AttributeCase {
    let mut header = carried(protocol, &form.octets());
    header.pop();
    let words = format!("header protocol {protocol}, {form:?}, last octet cut");
    header_case(words, protocol, header, Peers::default())
}

/// Ethernet types of other kinds.
const OTHER_TYPES: [[u8; 2]; 8] = [
    [0x00, 0x08],
    [0x00, 0x2c],
    [0x08, 0x06],
    [0x80, 0x00],
    [0x81, 0x00],
    [0x86, 0xdd],
    [0xff, 0xff],
    [0x08, 0x08],
];

/// Ethernet types that differ from that of IPv4 in one bit.
fn nearest_types() -> impl Iterator<Item = [u8; 2]> {
    let right = u16::from_be_bytes(ETHERNET_IPV4);
    (0..16).map(move |bit| (right ^ 1 << bit).to_be_bytes())
}

/// The Ethernet type of IPv4 and others; a tag before the type.
fn ethernet_types() -> Vec<AttributeCase> {
    let form = Ipv4Form::tcp(4);
    let packet = form.octets();
    let of_type = |kind: [u8; 2], peers: Peers| {
        let words = format!("type {kind:02x?}");
        header_case(words, ETHERNET, ethernet(kind, &packet), peers)
    };
    let none = Peers::default();
    let tag = [&[0x00, 0x05, 0x08, 0x00], &packet[..]].concat();
    let tagged = ethernet([0x81, 0x00], &tag);
    let mut cases = vec![of_type(ETHERNET_IPV4, told(form))];
    let others = nearest_types().chain(OTHER_TYPES);
    cases.extend(others.map(|kind| of_type(kind, none)));
    cases.push(header_case("a tagged frame".into(), ETHERNET, tagged, none));
    cases
}

/// Every header protocol with a packet from octet 0, and from octet 14.
fn header_protocols() -> Vec<AttributeCase> {
    let packet = Ipv4Form::tcp(4).octets();
    let framed = ethernet(ETHERNET_IPV4, &packet);
    let mut cases = Vec::new();
    for protocol in FIRST_HEADER_PROTOCOL..=LAST_HEADER_PROTOCOL {
        let seen = |from: u32| match protocol == from {
            true => told(Ipv4Form::tcp(4)),
            false => Peers::default(),
        };
        let words = format!("header protocol {protocol}, packet from octet ");
        let (bare, frame) = (packet.clone(), framed.clone());
        cases.push(header_case(words.clone() + "0", protocol, bare, seen(IPV4)));
        cases.push(header_case(words + "14", protocol, frame, seen(ETHERNET)));
    }
    cases.push(ipv6_packet());
    cases
}

/// Octets that are an IPv4 packet from octet 0 and a frame with another one
/// from octet 14, under every header protocol. The outer one's source address
/// begins with the Ethernet type, and its destination and its ports are the
/// inner one's third to tenth octets.
fn read_both_ways() -> Vec<AttributeCase> {
    let form = Ipv4Form::tcp(4);
    let first = [0x45, 0, 0, 60, 0, 0, 0, 0, 64, 17, 0, 0];
    let header = [&first[..], &ETHERNET_IPV4, &form.octets()].concat();
    let outer = Peers {
        peer_type: PEER_IPV4,
        source_address: 0x0800_4500,
        dest_address: 0x0028_0001,
        protocol: 17,
        source_port: 0x4000,
        dest_port: 0x4006,
    };
    let read_as = |protocol: u32| {
        let peers = match protocol {
            ETHERNET => told(form),
            IPV4 => outer,
            _ => Peers::default(),
        };
        let words = format!("header protocol {protocol}, a packet both ways");
        header_case(words, protocol, header.clone(), peers)
    };
    (FIRST_HEADER_PROTOCOL..=LAST_HEADER_PROTOCOL)
        .map(read_as)
        .collect()
}

/// An IPv6 packet under header protocol 12.
fn ipv6_packet() -> AttributeCase {
    let header = [
        vec![0x60, 0, 0, 0, 0, 20, 6, 64],
        vec![0x20; 32],
        vec![1; 20],
    ];
    let words = "header protocol 12, an IPv6 packet".into();
    header_case(words, 12, header.concat(), Peers::default())
}

/// Total lengths, fragment offsets and an inner packet do not matter.
fn fields_passed_over() -> Vec<AttributeCase> {
    let form = Ipv4Form::tcp(4);
    let with = |words: &str, at: usize, octets: [u8; 2]| {
        let mut header = form.octets();
        header.splice(at..at + 2, octets);
        header_case(words.into(), IPV4, header, told(form))
    };
    let tunnel = Ipv4Form {
        protocol: 4,
        ..Ipv4Form::tcp(0)
    };
    let header = [tunnel.octets(), form.octets()].concat();
    vec![
        with("total length 0", 2, [0, 0]),
        with("total length 20", 2, [0, 20]),
        with("total length 65535", 2, [0xff, 0xff]),
        with("more fragments", 6, [0x20, 0]),
        with("fragment offset 1", 6, [0, 1]),
        with("fragment offset 8191", 6, [0x1f, 0xff]),
        header_case("IPv4 in IPv4".into(), IPV4, header, told(tunnel)),
    ]
}

/// Octets that are not exactly one flow sample.
fn no_flow_samples() -> Vec<AttributeCase> {
    let all = wrong_lengths().into_iter().chain(wrong_words());
    let none = |(words, octets): (&str, Vec<u8>)| AttributeCase {
        words: words.into(),
        octets,
        stated: None,
    };
    all.map(none).collect()
}

/// A flow sample with 23 header octets, from octet 48 on, and one of padding.
fn padded_sample() -> Vec<u8> {
    header_sample(IPV4, Ipv4Form::tcp(3).octets())
}

/// Too few octets, and too many.
fn wrong_lengths() -> Vec<(&'static str, Vec<u8>)> {
    let whole = padded_sample();
    let first = |length: usize| whole.iter().copied().take(length).collect();
    vec![
        ("no octets", Vec::new()),
        ("one octet", vec![0]),
        ("the type word", first(4)),
        ("the last octet cut", first(whole.len() - 1)),
        ("the last word cut", first(whole.len() - 4)),
        ("one octet more", [&whole[..], &[0]].concat()),
        ("one word more", [&whole[..], &[0; 4]].concat()),
        ("two flow samples", whole.repeat(2)),
    ]
}

/// A counter sample, and words that are not in the grammar.
fn wrong_words() -> Vec<(&'static str, Vec<u8>)> {
    let whole = padded_sample();
    let with_word = |at: usize, word: u32| {
        let mut octets = whole.clone();
        octets.splice(at..at + 4, word.to_be_bytes());
        octets
    };
    let counters = octets_of(&[2, 5, 0x0100_0064, 20, 7, 100, 0, 0, 0, 0, 0, 0]);
    let last = whole.len() - 4;
    vec![
        ("a counter sample", counters),
        ("sample type 0", with_word(0, 0)),
        ("sample type 2", with_word(0, 2)),
        ("sample type 3", with_word(0, 3)),
        ("packet data type 4", with_word(32, 4)),
        ("header protocol 0", with_word(36, 0)),
        ("header protocol 14", with_word(36, 14)),
        ("header length 257", with_word(44, 257)),
        ("header length 25", with_word(44, 25)),
        ("padding not zero", with_word(68, 0x1234_fe01)),
        ("one extended entry missing", with_word(last, 1)),
        ("all extended entries missing", with_word(last, u32::MAX)),
    ]
}

/// A flow sample with extended data behind it, and one that is longer than
/// any datagram.
fn long_samples() -> Vec<AttributeCase> {
    let mut cases = vec![url_case(3), url_case(69_900)];
    let mut cut = url_case(66_000);
    cut.octets.pop();
    cut.words += ", its last octet cut";
    cut.stated = None;
    cases.push(cut);
    cases
}

/// A TCP packet and a URL of so many octets.
fn url_case(length: usize) -> AttributeCase {
    let form = Ipv4Form::tcp(4);
    let octets = long_sample(form.octets(), length);
    case(format!("a URL of {length} octets"), octets, told(form))
}

/// A flow sample with this IPv4 header and a URL of so many octets.
pub fn long_sample(header: Vec<u8>, length: usize) -> Vec<u8> {
    let url = ExtendedData::Url(ExtendedUrl {
        direction: UrlDirection::Dst,
        url: vec![b'/'; length],
    });
    let flow = FlowSample {
        extended_data: vec![url],
        ..flow_of(header_data(IPV4, header))
    };
    encode_sample(&Sample::Flow(flow)).octets
}
