//! The engine.

use conformance::attributes::VALUED;
use conformance::engine::{engine, Entry, Key};
use conformance::engine_cases::{engine_cases, Stated};

/// What the engine gives, in the form of what is stated.
fn given(set: &[u8], sample: &[u8]) -> Stated {
    match engine(set, sample) {
        Err(refusal) => Stated::Refused(refusal.number, refusal.rule),
        Ok(outcome) => {
            let entries = VALUED.iter().zip(outcome.key);
            let key = entries.map(|(&n, Entry { mask, value })| (n, mask, value));
            let key = key.filter(|&(_, mask, value)| (mask, value) != (0, 0));
            Stated::Answered(outcome.answer as u32, outcome.rules, key.collect())
        }
    }
}

#[test]
fn situations_are_answered_as_stated() {
    let mut wrong = Vec::new();
    for case in engine_cases() {
        let given = given(&case.set, &case.sample);
        if given != case.stated {
            wrong.push(format!(
                "{}: {given:?}, stated {:?}",
                case.words, case.stated
            ));
        }
    }
    assert!(wrong.is_empty(), "{wrong:#?}");
}

#[test]
fn a_key_is_all_zero_at_first() {
    let set = conformance::rules::Rule::new(conformance::rules::COUNT, 0);
    let sample = conformance::packets::tcp_sample();
    let outcome = engine(&set.to_octets(), &sample).expect("an answer");
    assert_eq!(outcome.key, Key::default());
}
