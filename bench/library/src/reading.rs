//! Reading a datagram: all of it accepted or refused (`read`), and then all values of all samples
//! (`walk`). A refusal counts as its number and place.

use std::hint::black_box;

use conformance::reader::{self, Reading, SamplePlaces};
use conformance::refusal::Refusal;
use conformance::value::{Address, CountersSample, ExtendedData, FlowSample, PacketData, Sample};

use crate::{calls, repeated, word, Side, Work};

/// The last octet of an IPv4 agent's sequence number. It is changed before each turn, so that no
/// turn can be left out.
const CHANGED: usize = 15;

/// Places in the library's arrays, as include/sflow4.h names them.
const SAMPLE_COUNT: usize = 7;
const FIRST_SAMPLE: usize = 8;
const SAMPLE_LENGTH: usize = 2;
const COUNTER_COUNT: usize = 7;
const COUNTER_FIRST: usize = 8;
const EXTENDED_COUNT: usize = 11;
const FIRST_EXTENDED: usize = 12;
const HEADER_NUMBERS: usize = 17;
const EXTENDED_NEXT: usize = 1;
const SWITCH_NUMBERS: usize = 6;

/// The arrays that the library writes to, the same in all turns; nothing clears them.
struct Arrays {
    head: [u64; 9],
    sample: [u64; 45],
    extended: [u64; 10],
}

pub fn read(work: Work) -> Result<u64, String> {
    let mut head = [0; 9];
    match work.side {
        Side::Ours => turns(work, |octets| ours_read(octets, &mut head)),
        Side::Second => turns(work, |octets| match reader::read(octets) {
            Ok(reading) => of_head(&reading),
            Err(refusal) => of_refusal(refusal),
        }),
    }
}

pub fn walk(work: Work) -> Result<u64, String> {
    let mut arrays = Arrays {
        head: [0; 9],
        sample: [0; 45],
        extended: [0; 10],
    };
    match work.side {
        Side::Ours => turns(work, |octets| ours_walk(octets, &mut arrays)),
        Side::Second => turns(work, |octets| match reader::read(octets) {
            Ok(reading) => of_reading(&reading),
            Err(refusal) => of_refusal(refusal),
        }),
    }
}

fn turns(mut work: Work, mut task: impl FnMut(&[u8]) -> u64) -> Result<u64, String> {
    if word(&work.octets, 4) != 1 || work.octets.len() <= CHANGED {
        return Err("FILE is no datagram of an IPv4 agent".into());
    }
    Ok(repeated(work.turns, |turn| {
        work.octets[CHANGED] = turn as u8;
        task(black_box(&work.octets))
    }))
}

fn sum(numbers: &[u64]) -> u64 {
    numbers.iter().fold(0, |sum, &n| sum.wrapping_add(n))
}

fn ours_read(octets: &[u8], head: &mut [u64; 9]) -> u64 {
    match calls::read(octets, head) {
        0 => sum(head),
        refusal => u64::from(refusal) + head[0],
    }
}

fn ours_walk(octets: &[u8], arrays: &mut Arrays) -> u64 {
    let refusal = calls::read(octets, &mut arrays.head);
    if refusal != 0 {
        return u64::from(refusal) + arrays.head[0];
    }
    let mut found = sum(&arrays.head);
    let mut at = arrays.head[FIRST_SAMPLE] as usize;
    for _ in 0..arrays.head[SAMPLE_COUNT] {
        calls::sample(octets, at, &mut arrays.sample);
        at += arrays.sample[SAMPLE_LENGTH] as usize;
        found = found.wrapping_add(match arrays.sample[0] {
            1 => ours_flow(octets, arrays),
            _ => ours_counters(&arrays.sample),
        });
    }
    found
}

/// A flow sample with a header and switch entries, as all of the inputs are.
fn ours_flow(octets: &[u8], arrays: &mut Arrays) -> u64 {
    let first = arrays.sample[FIRST_EXTENDED];
    let mut found = sum(&arrays.sample[..HEADER_NUMBERS]).wrapping_sub(first);
    let mut at = first as usize;
    for _ in 0..arrays.sample[EXTENDED_COUNT] {
        calls::extended(octets, at, &mut arrays.extended);
        let values = sum(&arrays.extended[EXTENDED_NEXT + 1..SWITCH_NUMBERS]);
        found = found.wrapping_add(arrays.extended[0]).wrapping_add(values);
        at = arrays.extended[EXTENDED_NEXT] as usize;
    }
    found
}

fn ours_counters(sample: &[u64; 45]) -> u64 {
    let counters = (sample[COUNTER_COUNT] as usize).min(45 - COUNTER_FIRST);
    sum(&sample[..COUNTER_FIRST + counters])
}

fn of_refusal(refusal: Refusal) -> u64 {
    u64::from(refusal.number()) + refusal.place as u64
}

/// Agent type and address, sequence number, uptime, how many samples, where the first begins.
fn of_head(reading: &Reading) -> u64 {
    let datagram = &reading.datagram;
    let address = match &datagram.agent_address {
        Address::IpV4(octets) => u64::from(word(octets, 0)),
        Address::IpV6(octets) => (0..4).map(|i| u64::from(word(octets, 4 * i))).sum(),
    };
    let words = [
        datagram.agent_address.type_number(),
        datagram.sequence_number,
        datagram.uptime,
    ];
    let places = datagram.samples.len() + reading.first_sample;
    address
        .wrapping_add(of_words(&words))
        .wrapping_add(places as u64)
}

fn of_words(words: &[u32]) -> u64 {
    words.iter().map(|&word| u64::from(word)).sum()
}

fn of_reading(reading: &Reading) -> u64 {
    let samples = reading.datagram.samples.iter().zip(&reading.places);
    samples.fold(of_head(reading), |found, (sample, places)| {
        let span = places.sample.offset + places.sample.length;
        let values = match sample {
            Sample::Flow(flow) => 1 + of_flow(flow, places),
            Sample::Counters(counters) => of_counters(counters).wrapping_add(2),
        };
        found.wrapping_add(span as u64).wrapping_add(values)
    })
}

/// A flow sample with a header and switch entries, as all of the inputs are.
fn of_flow(flow: &FlowSample, places: &SamplePlaces) -> u64 {
    let words = [
        flow.sequence_number,
        flow.source_id,
        flow.sampling_rate,
        flow.sample_pool,
        flow.drops,
        flow.input,
        flow.output,
    ];
    let packet = match &flow.packet_data {
        PacketData::Header(header) => {
            let place =
                places.strings.first().map_or(0, |place| place.offset) + header.header.len();
            1 + of_words(&[header.protocol, header.frame_length]) + place as u64
        }
        PacketData::Ipv4(_) | PacketData::Ipv6(_) => 0,
    };
    let entries: u64 = flow.extended_data.iter().map(of_entry).sum();
    of_words(&words) + packet + flow.extended_data.len() as u64 + entries
}

fn of_entry(entry: &ExtendedData) -> u64 {
    match entry {
        ExtendedData::Switch(own) => {
            1 + of_words(&[
                own.src_vlan,
                own.src_priority,
                own.dst_vlan,
                own.dst_priority,
            ])
        }
        _ => 0,
    }
}

fn of_counters(own: &CountersSample) -> u64 {
    let version = own.version.number();
    let words = [
        own.sequence_number,
        own.source_id,
        own.sampling_interval,
        version,
    ];
    sum(&own.counters).wrapping_add(of_words(&words) + own.counters.len() as u64)
}
