//! Sample captures, each with a name and the text that a lister must print.

use crate::capture::{capture_of, head, record};
use crate::cases::{beginning, header_datagram, octets_of};
use crate::counters::CountersVersion;
use crate::edges::{of_length, LONGEST_ACCEPTED};
use crate::encoder::encode;
use crate::generator::every_extended_kind;
use crate::grammar::MAX_DATAGRAM_SIZE;
use crate::listing::list;
use crate::parts::{counters, flow, header, ipv4, ipv6};
use crate::random::Random;
use crate::value::*;

/// The seed of the samples' free numbers.
const SEED: u64 = 3176;

/// A capture and its name.
#[derive(Clone, Debug, PartialEq, Eq)]
pub struct NamedCapture {
    /// In lower case with hyphens; it tells what the capture shows.
    pub name: &'static str,
    /// The capture's octets.
    pub capture: Vec<u8>,
}

impl NamedCapture {
    /// The text that a lister must print.
    pub fn text(&self) -> Vec<u8> {
        list(&self.capture)
    }
}

fn named(name: &'static str, capture: Vec<u8>) -> NamedCapture {
    NamedCapture { name, capture }
}

/// The small captures.
pub fn small_captures() -> Vec<NamedCapture> {
    vec![
        named("every-form", every_form()),
        named("refusals", refusals()),
        named("example", example()),
        named("wrong-mark", wrong_mark()),
        named(
            "length-over-65507",
            [good(), head(65_508).to_vec()].concat(),
        ),
        named("cut-head", [good(), head(24)[..3].to_vec()].concat()),
        named("cut-datagram", cut_datagram()),
        named("empty", Vec::new()),
    ]
}

/// The large captures: the longest datagram, the longest record, and a length
/// that is one greater with all octets that it calls for.
pub fn large_captures() -> Vec<NamedCapture> {
    vec![
        named("longest-datagram", record(&longest_datagram())),
        named("longest-record", longest_record()),
        named("length-over-65507-whole", whole_length_over()),
    ]
}

/// An IPv4 and an IPv6 agent; each datagram has samples of both kinds, every
/// packet data kind, every extended data kind and every counters version.
fn every_form() -> Vec<u8> {
    let mut random = Random::new(SEED);
    let random = &mut random;
    let agents = [
        Address::IpV4([192, 0, 2, 255]),
        Address::IpV6([
            0x20, 1, 0x0d, 0xb8, 0, 0, 0, 0, 0, 0, 0, 0, 0, 0, 0xab, 0xcd,
        ]),
    ];
    let datagrams = agents.map(|agent_address| Datagram {
        agent_address,
        sequence_number: random.word(),
        uptime: random.word(),
        samples: every_sample(random),
    });
    datagrams
        .iter()
        .flat_map(|own| record(&encode(own).octets))
        .collect()
}

/// Samples of every form.
fn every_sample(random: &mut Random) -> Vec<Sample> {
    let data = [header(random, 1, 61), ipv4(random), ipv6(random)];
    let mut samples = Vec::new();
    for packet_data in data {
        let entries = every_extended_kind(random);
        samples.push(flow(random, packet_data, entries));
    }
    samples.extend(CountersVersion::ALL.map(|version| counters(random, version)));
    samples
}

/// Refused datagrams in the order of their numbers, 1 to 13, each between
/// accepted ones.
fn refusals() -> Vec<u8> {
    let mut capture = record(&beginning(0));
    for (_, _, datagram) in refused_datagrams() {
        capture.extend(record(&datagram));
        capture.extend(record(&vlan_datagram(7)));
    }
    capture
}

/// Case 7's datagram with this counters version.
fn vlan_datagram(version: u32) -> Vec<u8> {
    let sample = [2, 5, 0x0100_0064, 20, version, 100, 0, 0, 0, 0, 0, 0];
    [beginning(1), octets_of(&sample)].concat()
}

/// Case 3's beginning and a flow sample with these words behind its output.
fn flow_datagram(words: &[u32]) -> Vec<u8> {
    let numbers = octets_of(&[1, 9, 3, 512, 4096, 0, 1, 2]);
    [beginning(1), numbers, octets_of(words)].concat()
}

/// For every refusal that a capture can show its number, its place and a
/// datagram that gets it. (14 takes a longer datagram than a record holds.)
pub fn refused_datagrams() -> Vec<(u32, usize, Vec<u8>)> {
    let empty_header = [1, 1, 64, 0, 1];
    let extended = |words: &[u32]| flow_datagram(&[&empty_header, words].concat());
    let cut: Vec<u8> = beginning(0).into_iter().take(23).collect();
    vec![
        (1, 20, cut),
        (2, 0, octets_of(&[5])),
        (3, 4, octets_of(&[4, 3, 0x0a00_0007, 1, 1000, 0])),
        (4, 24, [beginning(1), octets_of(&[3, 5])].concat()),
        (5, 56, flow_datagram(&[4, 0])),
        (6, 60, flow_datagram(&[1, 14, 64, 0, 0])),
        (7, 68, header_datagram(257, &[])),
        (8, 76, extended(&[6, 0])),
        (9, 96, extended(&[3, 100, 101, 102, 1, 3, 0, 0, 0])),
        (10, 80, extended(&[5, 3, 0])),
        (11, 40, vlan_datagram(8)),
        (12, 78, header_datagram(5, &[1, 2, 3, 4, 5, 0, 1, 0])),
        (13, 24, [beginning(0), vec![0]].concat()),
    ]
}

/// The scope's example: case 7's datagram and the word 5.
fn example() -> Vec<u8> {
    capture_of([&vlan_datagram(7)[..], &[0, 0, 0, 5]])
}

/// An accepted, a refused and an accepted datagram.
fn good() -> Vec<u8> {
    [example(), record(&beginning(0))].concat()
}

/// A good record whose mark is the wrong way round, and another behind it.
fn wrong_mark() -> Vec<u8> {
    let mut wrong = record(&beginning(0));
    wrong.swap(0, 1);
    [good(), wrong, record(&beginning(0))].concat()
}

/// A record that lacks its last octet.
fn cut_datagram() -> Vec<u8> {
    let mut cut = record(&vlan_datagram(7));
    cut.pop();
    [good(), cut].concat()
}

/// The longest datagram that is accepted, with as many samples as fit. Every
/// item is a multiple of 4 octets and 65,507 is not, so it has 65,504: 24 and
/// 1,362 VLAN counter samples of 48 octets, the shortest there are, and 2 flow
/// samples of 52 with an empty header, which take up the 8 octets left over.
fn longest_datagram() -> Vec<u8> {
    let mut random = Random::new(SEED);
    let random = &mut random;
    let mut samples = Vec::new();
    for _ in 0..1362 {
        samples.push(counters(random, CountersVersion::Vlan));
    }
    for _ in 0..2 {
        let data = header(random, 11, 0);
        samples.push(flow(random, data, Vec::new()));
    }
    encode(&Datagram {
        agent_address: Address::IpV4([10, 0, 0, 7]),
        sequence_number: 1,
        uptime: 1000,
        samples,
    })
    .octets
}

/// A record of 65,507 octets: an accepted datagram with 3 octets too many,
/// and a good record behind it.
fn longest_record() -> Vec<u8> {
    let mut octets = of_length(&mut Random::new(SEED), LONGEST_ACCEPTED);
    octets.resize(MAX_DATAGRAM_SIZE, 0);
    [record(&octets), good()].concat()
}

/// A datagram of 65,508 octets that is well formed but for its length, and a
/// good record behind it.
fn whole_length_over() -> Vec<u8> {
    let octets = of_length(&mut Random::new(SEED), MAX_DATAGRAM_SIZE + 1);
    [good(), record(&octets), good()].concat()
}
