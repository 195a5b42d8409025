//! Every item of an accepted datagram, come to by the offsets that the library gives.

use conformance::cursor::Span;
use conformance::reader::{Reading, SamplePlaces};
use conformance::sample_reader::{read_extended_data, read_path_segment};
use conformance::value::*;

use crate::answers::{compare_answer, Answer};
use crate::calls;
use crate::item_numbers::*;
use crate::reading::datagram_case;
use crate::tally::{Tally, Told};
use crate::text::hex;

/// Where a sample's first extended entry is in its array.
const FIRST_ENTRY: usize = 12;

/// Where the header's offset and length are in a sample's array.
const HEADER_PLACE: usize = 15;

/// Compares the samples from the first on; they lie end to end up to the datagram's end.
pub fn compare_samples(tally: &mut Tally, octets: &[u8], first: u64, reading: &Reading) {
    let mut at = first;
    for (sample, places) in reading.datagram.samples.iter().zip(&reading.places) {
        at = compare_sample(tally, octets, at, sample, places);
    }
    compare_end(tally, octets, "the last sample's end", at, octets.len());
}

/// Compares the sample at an offset and what lies in it; gives the offset behind it.
fn compare_sample(
    tally: &mut Tally,
    octets: &[u8],
    at: u64,
    sample: &Sample,
    places: &SamplePlaces,
) -> u64 {
    let numbers = sample_numbers(octets, sample, places.sample, &places.strings);
    let input = || datagram_case(octets).number("at", at);
    let call = |out: &mut [u64]| calls::sample(octets, at as usize, out);
    let second = Answer::new(0, numbers);
    let array = compare_answer(tally, "sflow4_sample", &input, &second, &call);
    let end = array[1].wrapping_add(array[2]);
    if let Sample::Flow(flow) = sample {
        let mut strings = places.strings.as_slice();
        if let PacketData::Header(own) = &flow.packet_data {
            compare_string(tally, octets, &array[HEADER_PLACE..], &own.header);
            strings = strings.get(1..).unwrap_or_default();
        }
        let entries = &flow.extended_data;
        let behind = compare_entries(tally, octets, array[FIRST_ENTRY], entries, strings);
        compare_end(tally, octets, "the last entry's end", behind, end as usize);
    }
    end
}

/// Compares the extended entries from the first on; gives the offset behind the last.
fn compare_entries(
    tally: &mut Tally,
    octets: &[u8],
    first: u64,
    entries: &[ExtendedData],
    mut strings: &[Span],
) -> u64 {
    let mut at = first;
    for entry in entries {
        let count = string_count(entry).min(strings.len());
        let (own, others) = strings.split_at(count);
        strings = others;
        at = compare_entry(tally, octets, at, entry, own);
    }
    at
}

/// How many strings an entry has.
fn string_count(entry: &ExtendedData) -> usize {
    match entry {
        ExtendedData::User(_) => 2,
        ExtendedData::Url(_) => 1,
        _ => 0,
    }
}

/// Compares the entry at an offset and what lies in it; gives the offset behind it.
fn compare_entry(
    tally: &mut Tally,
    octets: &[u8],
    at: u64,
    entry: &ExtendedData,
    strings: &[Span],
) -> u64 {
    let item = item_at(octets, at as usize, read_extended_data);
    let next = item.map_or(0, |item| item.next);
    let numbers = extended_numbers(at as usize, entry, next, strings);
    let input = || datagram_case(octets).number("at", at);
    let call = |out: &mut [u64]| calls::extended(octets, at as usize, out);
    let second = Answer::new(0, numbers);
    let array = compare_answer(tally, "sflow4_extended", &input, &second, &call);
    match entry {
        ExtendedData::Gateway(own) => compare_gateway(tally, octets, &array, own),
        ExtendedData::User(own) => {
            compare_string(tally, octets, &array[2..], &own.src_user);
            compare_string(tally, octets, &array[4..], &own.dst_user);
        }
        ExtendedData::Url(own) => compare_string(tally, octets, &array[3..], &own.url),
        _ => {}
    }
    array[1]
}

/// Compares a gateway's path segments and communities.
fn compare_gateway(tally: &mut Tally, octets: &[u8], array: &[u64], own: &ExtendedGateway) {
    let mut at = array[6];
    for segment in &own.dst_as_path {
        at = compare_segment(tally, octets, at, segment);
    }
    let communities = array[8];
    compare_end(
        tally,
        octets,
        "the last segment's end",
        at,
        (communities as usize).wrapping_sub(4),
    );
    compare_words(tally, octets, communities, &own.communities);
}

/// Compares the path segment at an offset and its words; gives the offset behind it.
fn compare_segment(tally: &mut Tally, octets: &[u8], at: u64, segment: &AsPath) -> u64 {
    let item = item_at(octets, at as usize, read_path_segment);
    let next = item.map_or(0, |item| item.next);
    let input = || datagram_case(octets).number("at", at);
    let call = |out: &mut [u64]| calls::segment(octets, at as usize, out);
    let second = Answer::new(0, segment_numbers(at as usize, segment, next));
    let array = compare_answer(tally, "sflow4_segment", &input, &second, &call);
    compare_words(tally, octets, array[3], segment.numbers());
    array[1]
}

/// Compares the words that lie at an offset.
fn compare_words(tally: &mut Tally, octets: &[u8], at: u64, words: &[u32]) {
    let own: Vec<u8> = words.iter().flat_map(|word| word.to_be_bytes()).collect();
    compare_string(tally, octets, &[at, own.len() as u64], &own);
}

/// Compares the octets at the place, offset and length, that an array begins with.
fn compare_string(tally: &mut Tally, octets: &[u8], place: &[u64], second: &[u8]) {
    let end = place[0].wrapping_add(place[1]) as usize;
    let ours = octets.get(place[0] as usize..end);
    tally.compare(ours == Some(second), "a string's place", || Told {
        input: datagram_case(octets),
        ours: format!("offset {} length {}", place[0], place[1]),
        second: hex(second),
    });
}

/// Compares the offset behind the last item of a list with where it must be.
fn compare_end(tally: &mut Tally, octets: &[u8], what: &str, ours: u64, second: usize) {
    tally.compare(ours == second as u64, what, || Told {
        input: datagram_case(octets),
        ours: ours.to_string(),
        second: second.to_string(),
    });
}
