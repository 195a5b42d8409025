//! The engine's vectors: the situations, then the random pairs of a seed; and
//! their two files.

use crate::attributes::{attributes, Attributes};
use crate::check_vectors::{any_length, crowded_sets};
use crate::engine::{engine, Outcome};
use crate::engine_cases::engine_cases;
use crate::framing::{file_of, whole_strings};
use crate::random::Random;
use crate::random_samples::*;
use crate::rule_damage::{aimed_miss, near_miss, AIMS};
use crate::rule_generator::{accepted_set, any_plan};
use crate::rule_layout::Plan;
use crate::rules::*;
use crate::small_rule_sets::small_set;
use crate::value::FlowSample;

/// A rule set and the octets of a sample.
#[derive(Clone, Debug, PartialEq, Eq)]
pub struct Pair {
    /// The octets of the rule set, right or wrong.
    pub set: Vec<u8>,
    /// The octets that should be a flow sample.
    pub sample: Vec<u8>,
}

/// How many random sets there are.
const SETS: usize = 420;

/// How many pairs there are whose runs fill the queue.
const FILLING: usize = 20;

/// All pairs for a seed.
pub fn engine_vectors(seed: u64) -> Vec<Pair> {
    let mut random = Random::new(seed);
    let cases = engine_cases().into_iter();
    let mut all: Vec<Pair> = cases.map(|case| pair(case.set, case.sample)).collect();
    for turn in 0..SETS {
        all.extend(pairs_of_one_set(&mut random, turn));
    }
    all.extend((0..FILLING).map(|_| filling_pair(&mut random)));
    all
}

/// A set that only adds items, and the sample that its tests are made for.
fn filling_pair(random: &mut Random) -> Pair {
    let flow = flow_sample(random);
    let plan = Plan {
        calls: 0,
        changes: 7,
        adds: 8,
        ends: 0,
        passes: 8,
        ..any_plan(random, 90)
    };
    let rules = accepted_set(random, &plan, &[attributes(&flow)]);
    pair(octets_of_rules(&rules), octets_of_flow(&flow))
}

fn pair(set: Vec<u8>, sample: Vec<u8>) -> Pair {
    Pair { set, sample }
}

/// A random set with two samples that its tests are made for and one that
/// they are not, and a small set; now and then near misses, sets with several
/// changes, and octets that are no sample.
pub fn pairs_of_one_set(random: &mut Random, turn: usize) -> Vec<Pair> {
    let flows: Vec<FlowSample> = (0..3).map(|_| flow_sample(random)).collect();
    let packets: Vec<Attributes> = flows.iter().take(2).map(attributes).collect();
    let rules = any_length(random);
    let plan = any_plan(random, rules);
    let rules = accepted_set(random, &plan, &packets);
    let set = octets_of_rules(&rules);
    let with_flow = |flow: &FlowSample| pair(set.clone(), octets_of_flow(flow));
    let mut pairs: Vec<Pair> = flows.iter().map(with_flow).collect();
    pairs.push(pair(
        octets_of_rules(&small_set(random)),
        octets_of_flow(&flows[2]),
    ));
    if turn.is_multiple_of(4) {
        let crowded = crowded_sets(random).into_iter();
        pairs.extend(crowded.map(|set| pair(set, octets_of_flow(&flows[1]))));
        let aim = AIMS[turn / 4 % AIMS.len()];
        let missed = [near_miss(random, &rules), aimed_miss(random, &rules, aim)];
        let sample = octets_of_flow(&flows[0]);
        pairs.extend(missed.map(|set| pair(set, sample.clone())));
    }
    if turn.is_multiple_of(10) {
        let missed = near_miss(random, &rules);
        pairs.push(pair(missed, no_flow_sample(random)));
        pairs.push(pair(set.clone(), no_flow_sample(random)));
    }
    pairs
}

/// The pairs as a file, with one at its end whose sample is missing.
pub fn engine_file(pairs: &[Pair]) -> Vec<u8> {
    let strings = pairs.iter().flat_map(|pair| [&pair.set[..], &pair.sample]);
    let cut = Rule::new(IGNORE, 0).to_octets();
    file_of(strings.chain([&cut[..]]))
}

/// The pairs of a file; a cut one at its end is left out.
pub fn pairs_of(file: &[u8]) -> Vec<Pair> {
    let strings = whole_strings(file);
    let (pairs, _) = strings.as_chunks();
    let whole = |[set, sample]: &[&[u8]; 2]| pair(set.to_vec(), sample.to_vec());
    pairs.iter().map(whole).collect()
}

/// The text that answers a file.
pub fn engine_answers(file: &[u8]) -> String {
    let pairs = pairs_of(file);
    let lines = pairs
        .iter()
        .map(|pair| engine_line(&pair.set, &pair.sample));
    lines.collect()
}

/// The line that answers a set and a sample.
pub fn engine_line(set: &[u8], sample: &[u8]) -> String {
    match engine(set, sample) {
        Ok(outcome) => outcome_line(&outcome),
        Err(refusal) => format!("{refusal}\n"),
    }
}

fn outcome_line(outcome: &Outcome) -> String {
    let entries = outcome.key.iter();
    let key: String = entries
        .map(|e| format!(" {} {}", e.mask, e.value))
        .collect();
    let answer = outcome.answer as u32;
    format!("answer {answer} rules {} key{key}\n", outcome.rules)
}
