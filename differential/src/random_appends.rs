//! Appends from values: random ones, mostly right, and ones at every border of limit and length.

use conformance::counters::CountersVersion;
use conformance::damage::scramble;
use conformance::edges::of_length;
use conformance::encoder::{encode, encode_extended_data};
use conformance::grammar::MAX_DATAGRAM_SIZE;
use conformance::parts;
use conformance::random::Random;
use conformance::random_datagrams::{any_datagram, valid_datagram};
use conformance::value::{Address, Datagram, PacketData, Sample};
use conformance::write_calls::CountersValues;

use crate::appends::{Append, Given, GivenFlow};

/// The buffer before a call, and the call.
pub type AppendCall = (Vec<u8>, Append);

/// Where a refused sample is taken to end.
const NO_LENGTH: usize = 60;

/// Endless calls of a seed.
pub fn random_appends(seed: u64) -> impl Iterator<Item = AppendCall> {
    let mut random = Random::new(seed);
    std::iter::repeat_with(move || any_append(&mut random))
}

/// A call with any sample, limit and length.
fn any_append(random: &mut Random) -> AppendCall {
    let datagram = match random.below(8) {
        0 => any_datagram(random),
        _ => valid_datagram(random).octets,
    };
    let sample = any_sample(random);
    let end = datagram.len() + sample.octets().map_or(NO_LENGTH, |octets| octets.len());
    let limit = any_limit(random, datagram.len(), end);
    let room = any_room(random, limit);
    let call = Append {
        limit,
        length: any_length(random, datagram.len()),
        sample,
    };
    (lent(&datagram, room, random.hyper() as u8), call)
}

/// A buffer of this room that begins with a datagram.
fn lent(datagram: &[u8], room: usize, fill: u8) -> Vec<u8> {
    let mut buffer = datagram.to_vec();
    buffer.resize(room, fill);
    buffer
}

/// A limit about which there is something to test: the least and the greatest, one by the datagram
/// so far or by the new end, or mostly enough.
fn any_limit(random: &mut Random, so_far: usize, end: usize) -> usize {
    match random.below(16) {
        0 => [0, 24, 35, 36, 37][random.below(5)],
        1 => MAX_DATAGRAM_SIZE - 1 + random.below(3),
        2 => [usize::MAX, random.word() as usize][random.below(2)],
        3 => (so_far + random.below(3)).saturating_sub(1),
        4 => so_far + random.below(end + 1 - so_far),
        5 | 6 => end - 1,
        7..=9 => end,
        _ => end + 1 + random.below(100),
    }
}

/// The length of a buffer for this limit: mostly enough. Limits that no buffer may have do not call
/// for memory.
fn any_room(random: &mut Random, limit: usize) -> usize {
    let limit = limit.min(MAX_DATAGRAM_SIZE + 5);
    match random.below(12) {
        0 => limit.saturating_sub(1),
        1 => random.below(limit + 1),
        2..=6 => limit,
        _ => limit + random.below(50),
    }
}

/// Mostly the length itself.
fn any_length(random: &mut Random, length: usize) -> usize {
    match random.below(24) {
        0 => length.saturating_sub(1 + random.below(4)),
        1 => length + 1 + random.below(60),
        2 => [0, usize::MAX, random.word() as usize][random.below(3)],
        _ => length,
    }
}

fn any_sample(random: &mut Random) -> Given {
    match random.below(4) {
        0 => Given::Counters(any_counters(random)),
        _ => Given::Flow(any_flow(random)),
    }
}

fn any_flow(random: &mut Random) -> GivenFlow {
    let packet = match random.below(4) {
        0 => parts::ipv4(random),
        1 => parts::ipv6(random),
        _ => any_header(random),
    };
    let count = random.below(4);
    let entries = (0..count).map(|_| parts::extended_data(random));
    let octets: Vec<u8> = entries
        .flat_map(|own| encode_extended_data(&own).octets)
        .collect();
    let words = std::array::from_fn(|_| random.word());
    let (entries, octets) = (near(random, count), any_entries(random, octets));
    let mut flow = GivenFlow::new(words, packet, entries, octets);
    match random.below(24) {
        0 => other_count(random, &mut flow.words),
        1 if !flow.packet_words.is_empty() => other_count(random, &mut flow.packet_words),
        _ => {}
    }
    flow
}

/// A header, mostly of a protocol and a length that are in the grammar.
fn any_header(random: &mut Random) -> PacketData {
    let protocol = match random.below(12) {
        0 => [0, 14, random.word()][random.below(3)],
        _ => parts::header_protocol(random.below(13)),
    };
    let length = match random.below(8) {
        0 => 250 + random.below(11),
        1 => random.below(257),
        _ => random.below(70),
    };
    parts::header(random, protocol, length)
}

/// Mostly the number itself.
fn near(random: &mut Random, number: usize) -> u32 {
    let number = number as u32;
    match random.below(24) {
        0 => number.wrapping_add(1),
        1 => number.wrapping_sub(1),
        2 => random.word(),
        _ => number,
    }
}

/// Mostly the octets themselves, otherwise cut, longer, doubled or changed.
fn any_entries(random: &mut Random, mut octets: Vec<u8>) -> Vec<u8> {
    match random.below(24) {
        0 => octets.truncate(random.below(octets.len())),
        1 => {
            let more = 1 + random.below(8);
            octets.extend(random.octets(more));
        }
        2 => octets = octets.repeat(2),
        3 => octets = scramble(random, octets),
        _ => {}
    }
    octets
}

/// Fewer words, or more.
fn other_count(random: &mut Random, words: &mut Vec<u32>) {
    match random.below(2) {
        0 => words.truncate(random.below(words.len())),
        _ => {
            let more = 1 + random.below(8);
            words.extend(random.words(more));
        }
    }
}

/// Counters, mostly of a version that there is, as many as it has and within their widths.
fn any_counters(random: &mut Random) -> CountersValues {
    let version = match random.below(12) {
        0 => [0, 8, random.word()][random.below(3)],
        _ => 1 + random.below(7) as u32,
    };
    let mut counters = counters_of(random, version);
    let numbers = &mut counters.numbers;
    match random.below(12) {
        0 => numbers.push(0),
        1 => numbers.truncate(random.below(numbers.len())),
        2 => {
            let place = random.below(numbers.len());
            numbers[place] = [1 << 32, u32::MAX.into(), u64::MAX][random.below(3)];
        }
        _ => {}
    }
    counters
}

/// Counters of a version, those of a VLAN where there is no such version.
fn counters_of(random: &mut Random, version: u32) -> CountersValues {
    let known = CountersVersion::from_number(version).unwrap_or(CountersVersion::Vlan);
    let numbers = match parts::counters(random, known) {
        Sample::Counters(own) => own.counters,
        Sample::Flow(_) => Vec::new(),
    };
    CountersValues {
        sequence: random.word(),
        source: random.word(),
        interval: random.word(),
        version,
        numbers,
    }
}

/// Samples of each function, right and not in the grammar.
fn border_samples(random: &mut Random) -> Vec<Given> {
    let switch = encode_extended_data(&parts::switch(random)).octets;
    let mut samples = Vec::new();
    for (protocol, length) in [(1, 0), (13, 5), (2, 256), (0, 0), (14, 5), (1, 257)] {
        let header = parts::header(random, protocol, length);
        let words = std::array::from_fn(|_| random.word());
        samples.push(GivenFlow::new(words, header, 1, switch.clone()));
    }
    for packet in [parts::ipv4(random), parts::ipv6(random)] {
        for (entries, octets) in [(1, &switch[..]), (0, &[]), (2, &switch)] {
            let words = std::array::from_fn(|_| random.word());
            samples.push(GivenFlow::new(
                words,
                packet.clone(),
                entries,
                octets.to_vec(),
            ));
        }
    }
    let counters = [0, 1, 5, 7, 8].map(|version| counters_of(random, version));
    let flows = samples.into_iter().map(Given::Flow);
    flows.chain(counters.map(Given::Counters)).collect()
}

/// Short datagrams, with no sample and with one.
fn border_datagrams(random: &mut Random) -> Vec<Vec<u8>> {
    let agents = [Address::IpV4(random.array()), Address::IpV6(random.array())];
    let counters = parts::counters(random, CountersVersion::Vlan);
    let mut datagrams = Vec::new();
    for agent_address in agents {
        for samples in [Vec::new(), vec![counters.clone()]] {
            let datagram = Datagram {
                agent_address,
                sequence_number: random.word(),
                uptime: random.word(),
                samples,
            };
            datagrams.push(encode(&datagram).octets);
        }
    }
    datagrams
}

/// Calls with every limit and with lengths about the datagram's, in buffers that are a little longer
/// than the new end; and with ends and limits about the greatest.
pub fn border_appends() -> Vec<AppendCall> {
    let mut random = Random::new(1);
    let samples = border_samples(&mut random);
    let mut calls = Vec::new();
    for datagram in border_datagrams(&mut random) {
        for sample in &samples {
            calls.extend(about_the_end(&datagram, sample));
        }
    }
    for sample in &samples {
        calls.extend(about_the_greatest(&mut random, sample));
    }
    calls
}

/// Counts of samples about which the count word's octets change, and the greatest that leaves room
/// for one more of the least.
const MANY: [usize; 5] = [254, 255, 256, 1_023, 1_363];

/// A datagram of so many samples, the least that there are.
fn datagram_of_many(random: &mut Random, count: usize) -> Vec<u8> {
    let counters = parts::counters(random, CountersVersion::Vlan);
    let datagram = Datagram {
        agent_address: Address::IpV4(random.array()),
        sequence_number: random.word(),
        uptime: random.word(),
        samples: vec![counters; count],
    };
    encode(&datagram).octets
}

/// Calls behind so many samples that the count's octets change.
pub fn appends_behind_many() -> Vec<AppendCall> {
    let mut random = Random::new(1);
    let samples = border_samples(&mut random);
    let mut calls = Vec::new();
    for count in MANY {
        let datagram = datagram_of_many(&mut random, count);
        for sample in &samples {
            let call = Append {
                limit: MAX_DATAGRAM_SIZE,
                length: datagram.len(),
                sample: sample.clone(),
            };
            calls.push((lent(&datagram, MAX_DATAGRAM_SIZE, 0), call));
        }
    }
    calls
}

/// Calls with every limit up to behind the buffer's end.
fn about_the_end(datagram: &[u8], sample: &Given) -> Vec<AppendCall> {
    let so_far = datagram.len();
    let end = so_far + sample.octets().map_or(NO_LENGTH, |octets| octets.len());
    let buffer = lent(datagram, end + 4, 0);
    let lengths = [0, so_far - 1, so_far, so_far + 1, end + 5, usize::MAX];
    let with_limit = |limit| {
        let with_length = move |length| Append {
            limit,
            length,
            sample: sample.clone(),
        };
        lengths.map(with_length)
    };
    let calls = (0..end + 7).flat_map(with_limit);
    calls.map(|call| (buffer.clone(), call)).collect()
}

/// Calls with limits about 65,507, for a datagram that has just room for the sample and for one that
/// is four octets longer.
fn about_the_greatest(random: &mut Random, sample: &Given) -> Vec<AppendCall> {
    let own = sample.octets().map_or(NO_LENGTH, |octets| octets.len());
    let greatest = MAX_DATAGRAM_SIZE - MAX_DATAGRAM_SIZE % 4;
    let mut calls = Vec::new();
    for so_far in [greatest - own, greatest - own + 4] {
        let datagram = of_length(random, so_far);
        for limit in greatest - 1..=MAX_DATAGRAM_SIZE + 1 {
            let call = Append {
                limit,
                length: so_far,
                sample: sample.clone(),
            };
            calls.push((lent(&datagram, MAX_DATAGRAM_SIZE + 3, 0), call));
        }
    }
    calls
}
