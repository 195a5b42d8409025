//! Reading: whole datagrams, every item of the accepted ones, and items at any offset.

use conformance::cursor::Span;
use conformance::inputs::datagrams;
use conformance::random::Random;
use conformance::reader::read;
use conformance::sample_reader::{read_extended_data, read_path_segment, read_sample};

use crate::answers::{compare_answer, Answer};
use crate::calls;
use crate::case::{Case, Wrong};
use crate::item_numbers::*;
use crate::parts::Inputs;
use crate::tally::Tally;
use crate::walking::compare_samples;

/// Datagrams at scale 1.
const DATAGRAMS: usize = 200_000;

/// Compares on the datagrams of a seed.
pub fn compare_all(tally: &mut Tally, inputs: &Inputs) {
    let mut random = Random::new(!inputs.seed);
    for octets in datagrams(inputs.seed).take(inputs.count(DATAGRAMS)) {
        tally.input();
        compare_datagram(tally, &octets);
        for at in some_offsets(&mut random, octets.len()) {
            compare_items_at(tally, &octets, at);
        }
    }
}

/// Compares on a kept input.
pub fn compare_case(tally: &mut Tally, case: &Case) -> Result<(), Wrong> {
    let octets = case.octets_of("octets")?;
    match case.kind() {
        "datagram" => compare_datagram(tally, &octets),
        _ => compare_items_at(tally, &octets, case.number_of("at")?),
    }
    Ok(())
}

/// A datagram as a case.
pub fn datagram_case(octets: &[u8]) -> Case {
    Case::new("datagram").octets("octets", octets)
}

/// Compares on a datagram: the number and place of its refusal, or its head and every item in it.
pub fn compare_datagram(tally: &mut Tally, octets: &[u8]) {
    let input = || datagram_case(octets);
    tally.guarded(&input, |tally| {
        let second = read(octets);
        let answer = match &second {
            Ok(reading) => Answer::new(0, head_numbers(reading)),
            Err(refusal) => Answer::new(refusal.number(), vec![refusal.place as u64]),
        };
        let call = |out: &mut [u64]| calls::read(octets, out);
        let head = compare_answer(tally, "sflow4_read", &input, &answer, &call);
        if let Ok(reading) = second {
            compare_samples(tally, octets, head[8], &reading);
        }
    });
}

/// Offsets inside octets of this length, at their end, just behind it and far behind it.
fn some_offsets(random: &mut Random, length: usize) -> [usize; 5] {
    [
        4 * random.below(length / 4 + 2),
        4 * random.below(length / 4 + 2),
        random.below(length + 1),
        length + random.below(3),
        usize::MAX - random.below(9),
    ]
}

/// Compares a sample, an extended entry and a path segment read at an offset, whatever lies there.
pub fn compare_items_at(tally: &mut Tally, octets: &[u8], at: usize) {
    tally.guarded(&|| items_case(octets, at), |tally| {
        compare_sample_at(tally, octets, at);
        compare_extended_at(tally, octets, at);
        compare_segment_at(tally, octets, at);
    });
}

fn items_case(octets: &[u8], at: usize) -> Case {
    Case::new("items").octets("octets", octets).number("at", at)
}

fn compare_sample_at(tally: &mut Tally, octets: &[u8], at: usize) {
    let second = match item_at(octets, at, read_sample) {
        Ok(item) => {
            let place = Span {
                offset: at,
                length: item.next - at,
            };
            let numbers = sample_numbers(octets, &item.value, place, &item.strings);
            Answer::new(0, numbers)
        }
        Err(refusal) => refusal,
    };
    let input = || items_case(octets, at);
    let call = |out: &mut [u64]| calls::sample(octets, at, out);
    compare_answer(tally, "sflow4_sample", &input, &second, &call);
}

fn compare_extended_at(tally: &mut Tally, octets: &[u8], at: usize) {
    let second = match item_at(octets, at, read_extended_data) {
        Ok(item) => {
            let numbers = extended_numbers(at, &item.value, item.next, &item.strings);
            Answer::new(0, numbers)
        }
        Err(refusal) => refusal,
    };
    let input = || items_case(octets, at);
    let call = |out: &mut [u64]| calls::extended(octets, at, out);
    compare_answer(tally, "sflow4_extended", &input, &second, &call);
}

fn compare_segment_at(tally: &mut Tally, octets: &[u8], at: usize) {
    let second = match item_at(octets, at, read_path_segment) {
        Ok(item) => Answer::new(0, segment_numbers(at, &item.value, item.next)),
        Err(refusal) => refusal,
    };
    let input = || items_case(octets, at);
    let call = |out: &mut [u64]| calls::segment(octets, at, out);
    compare_answer(tally, "sflow4_segment", &input, &second, &call);
}
