//! Checking a rule set, and running it on a flow sample. An accepted set counts as 1, a run as its
//! answer, the rules come to and the key, a refusal as its number and the rule named.

use std::hint::black_box;

use conformance::check::{self, RuleRefusal};
use conformance::engine::{self, Outcome};

use crate::{calls, repeated, word, Side, Work};

/// The last octet of the last rule's value, from the set's end. It is free in the inputs, and
/// changed before each turn, so that no turn can be left out.
const CHANGED: usize = 5;

/// The first refusal that `calls::run` answers.
const FIRST_REFUSAL: u32 = 18;

pub fn check(work: Work) -> Result<u64, String> {
    let mut out = [0];
    match work.side {
        Side::Ours => turns(work, |set, _| match calls::check(set, &mut out) {
            0 => 1,
            refusal => u64::from(refusal) + out[0],
        }),
        Side::Second => turns(work, |set, _| match check::check(set) {
            Ok(_) => 1,
            Err(refusal) => of_refusal(refusal),
        }),
    }
}

pub fn run(work: Work) -> Result<u64, String> {
    let mut out = [0; 48];
    match work.side {
        Side::Ours => turns(work, |set, sample| {
            match calls::run(set, sample, &mut out) {
                refusal if refusal >= FIRST_REFUSAL => u64::from(refusal) + out[0],
                answer => out
                    .iter()
                    .fold(answer.into(), |sum, &n| sum.wrapping_add(n)),
            }
        }),
        Side::Second => turns(work, |set, sample| {
            engine::engine(set, sample).map_or_else(of_refusal, of_outcome)
        }),
    }
}

fn turns(mut work: Work, mut task: impl FnMut(&[u8], &[u8]) -> u64) -> Result<u64, String> {
    let length = word(&work.octets, 0) as usize;
    let Some((set, sample)) = work
        .octets
        .get_mut(4..)
        .and_then(|all| all.split_at_mut_checked(length))
    else {
        return Err("FILE is shorter than its first word says".into());
    };
    if length < CHANGED {
        return Err("FILE has no rule".into());
    }
    Ok(repeated(work.turns, |turn| {
        set[length - CHANGED] = turn as u8;
        task(black_box(set), black_box(sample))
    }))
}

fn of_refusal(refusal: RuleRefusal) -> u64 {
    u64::from(refusal.number) + refusal.rule as u64
}

fn of_outcome(outcome: Outcome) -> u64 {
    let entries = outcome.key.iter();
    let key: u64 = entries
        .map(|entry| u64::from(entry.mask) + u64::from(entry.value))
        .sum();
    outcome.answer as u64 + outcome.rules + key
}
