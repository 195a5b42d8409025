//! Rule sets: the check, and the engine on pairs of a set and a sample.

use conformance::attributes::VALUED;
use conformance::check::{check, RuleRefusal};
use conformance::check_cases::check_cases;
use conformance::engine::{engine, Outcome};
use conformance::engine_cases::engine_cases;
use conformance::inputs::{flow_samples, pairs, rule_sets};

use crate::answers::{compare_answer, Answer};
use crate::calls;
use crate::case::{Case, Wrong};
use crate::parts::Inputs;
use crate::tally::Tally;

/// Rule sets at scale 1.
const SETS: usize = 125_000;

/// Pairs at scale 1.
const PAIRS: usize = 125_000;

/// Where the key's masks and values begin in the engine's array, and how many numbers it takes.
const MASKS: usize = 2;
const VALUES: usize = 25;
const NUMBERS: usize = 48;

/// Compares on the rule sets, pairs and flow samples of a seed. Sets and pairs begin with situations
/// that are the same for every seed, the longest runs among them.
pub fn compare_all(tally: &mut Tally, inputs: &Inputs) {
    let (sets, situations) = match inputs.fixed {
        true => (0, 0),
        false => (check_cases().len(), engine_cases().len()),
    };
    let mut samples = flow_samples(inputs.seed);
    for set in rule_sets(inputs.seed).skip(sets).take(inputs.count(SETS)) {
        tally.input();
        compare_check(tally, &set);
        if check(&set).is_ok() {
            let sample = samples.next().unwrap_or_default();
            compare_run(tally, &set, &sample);
        }
    }
    let pairs = pairs(inputs.seed).skip(situations);
    for pair in pairs.take(inputs.count(PAIRS)) {
        tally.input();
        compare_run(tally, &pair.set, &pair.sample);
    }
}

/// Compares on a kept input.
pub fn compare_case(tally: &mut Tally, case: &Case) -> Result<(), Wrong> {
    let set = case.octets_of("set")?;
    match case.kind() {
        "rule-set" => compare_check(tally, &set),
        _ => compare_run(tally, &set, &case.octets_of("sample")?),
    }
    Ok(())
}

/// Compares the check of a set: its number and the rule named.
pub fn compare_check(tally: &mut Tally, set: &[u8]) {
    let input = || Case::new("rule-set").octets("set", set);
    tally.guarded(&input, |tally| {
        let second = match check(set) {
            Ok(_) => Answer::new(0, vec![0]),
            Err(refusal) => Answer::new(refusal.number, vec![refusal.rule as u64]),
        };
        let call = |out: &mut [u64]| calls::check(set, out);
        compare_answer(tally, "rtfm_check", &input, &second, &call);
    });
}

/// Compares the run of a set on a sample: its number, the rule named, the count of rules and the
/// whole key.
pub fn compare_run(tally: &mut Tally, set: &[u8], sample: &[u8]) {
    let input = || Case::new("run").octets("set", set).octets("sample", sample);
    tally.guarded(&input, |tally| {
        let second = match engine(set, sample) {
            Ok(outcome) => Answer::new(outcome.answer as u32, outcome_numbers(&outcome)),
            Err(refusal) => Answer::new(refusal.number, refusal_numbers(&refusal)),
        };
        let call = |out: &mut [u64]| calls::run(set, sample, out);
        compare_answer(tally, "rtfm_run", &input, &second, &call);
    });
}

/// The 48 numbers of a run.
fn outcome_numbers(outcome: &Outcome) -> Vec<u64> {
    let mut numbers = vec![0; NUMBERS];
    numbers[1] = outcome.rules;
    for (attribute, entry) in VALUED.into_iter().zip(outcome.key) {
        numbers[MASKS + usize::from(attribute)] = entry.mask.into();
        numbers[VALUES + usize::from(attribute)] = entry.value.into();
    }
    numbers
}

/// The 48 numbers of a refusal.
fn refusal_numbers(refusal: &RuleRefusal) -> Vec<u64> {
    let mut numbers = vec![0; NUMBERS];
    numbers[0] = refusal.rule as u64;
    numbers
}
