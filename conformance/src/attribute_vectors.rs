//! The attributes' vectors: the situations, then the random samples of a
//! seed; and their two files.

use std::collections::BTreeSet;

use crate::attribute_cases::attribute_cases;
use crate::attributes::{attributes, exact_flow_sample};
use crate::framing::{file_of, whole_strings};
use crate::packets::flow_of;
use crate::random::Random;
use crate::random_samples::*;
use crate::value::FlowSample;

/// How many random samples there are.
const RANDOM: usize = 400;

/// All octets for a seed, none twice.
pub fn attribute_vectors(seed: u64) -> Vec<Vec<u8>> {
    let mut random = Random::new(seed);
    let cases = attribute_cases().into_iter().map(|case| case.octets);
    let random = (0..RANDOM).map(|turn| random_octets(&mut random, turn));
    let mut seen = BTreeSet::new();
    let mut all: Vec<Vec<u8>> = cases.chain(random).collect();
    all.retain(|octets| seen.insert(octets.clone()));
    all
}

/// One in ten is nearly a flow sample, one in ten has a frame of anything.
pub fn random_octets(random: &mut Random, turn: usize) -> Vec<u8> {
    match turn % 10 {
        0 => no_flow_sample(random),
        1 => octets_of_flow(&FlowSample {
            input: random.word(),
            ..flow_of(frame_of_anything(random))
        }),
        _ => octets_of_flow(&flow_sample(random)),
    }
}

/// The octets as a file, with a cut string at its end.
pub fn attribute_file(vectors: &[Vec<u8>]) -> Vec<u8> {
    let mut file = file_of(vectors.iter().map(Vec::as_slice));
    file.extend([0, 0, 0, 52, 0, 0, 0, 1]);
    file
}

/// The text that answers a file.
pub fn attribute_answers(file: &[u8]) -> String {
    whole_strings(file)
        .into_iter()
        .map(attribute_line)
        .collect()
}

/// The line that answers octets.
pub fn attribute_line(octets: &[u8]) -> String {
    let Some(flow) = exact_flow_sample(octets) else {
        return "no flow sample\n".into();
    };
    let values = attributes(&flow).values();
    let numbers: String = values.iter().map(|value| format!(" {value}")).collect();
    format!("attributes{numbers}\n")
}
