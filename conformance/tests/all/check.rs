//! The check of rule sets.

use std::collections::BTreeSet;

use conformance::check::check;
use conformance::check_cases::{check_cases, CheckCase};
use conformance::check_pairs::{check_pairs, IMPOSSIBLE};
use conformance::rules::RULE_OCTETS;

/// The number and the rule named; nothing if accepted.
fn answered(case: &CheckCase) -> Option<(u32, usize)> {
    check(&case.set).err().map(|own| (own.number, own.rule))
}

#[test]
fn situations_are_answered_as_stated() {
    let mut wrong = Vec::new();
    for case in check_cases() {
        let answer = answered(&case);
        if answer != case.stated {
            wrong.push(format!(
                "{}: {answer:?}, stated {:?}",
                case.words, case.stated
            ));
        }
    }
    assert!(wrong.is_empty(), "{wrong:#?}");
}

/// Where a rule stands in a set of so many.
fn standing(rule: usize, rules: usize) -> &'static str {
    match rule {
        0 => "none",
        1 => "first",
        _ if rule == rules => "last",
        _ => "middle",
    }
}

#[test]
fn situations_have_every_refusal_at_every_place() {
    let mut found = BTreeSet::new();
    for case in check_cases() {
        if let Some((number, rule)) = case.stated {
            found.insert((number, standing(rule, case.set.len() / RULE_OCTETS)));
        }
    }
    let mut stated = BTreeSet::from([(30, "none"), (35, "first")]);
    for number in [31, 32, 33, 34, 36, 37, 38, 39] {
        stated.extend(["first", "middle", "last"].map(|place| (number, place)));
    }
    assert_eq!(found, stated);
}

#[test]
fn every_pair_that_one_rule_can_break_is_there() {
    let found: BTreeSet<(u32, u32)> = check_pairs().iter().map(|case| case.pair).collect();
    let above = |lower| (lower + 1..=39).map(move |higher| (lower, higher));
    let mut stated: BTreeSet<(u32, u32)> = (31..=39).flat_map(above).collect();
    assert_eq!(stated.len(), 36);
    stated.retain(|pair| !IMPOSSIBLE.contains(pair));
    assert_eq!(found, stated);
}

/// Without the lower fault the rule is named with the higher number, so it
/// breaks both; with it, with the lower one.
#[test]
fn a_rule_with_two_faults_gets_the_lower_number() {
    for case in check_pairs() {
        let (lower, higher) = case.pair;
        let given = |own: &CheckCase| answered(own).map(|(number, _)| number);
        assert_eq!(given(&case.both), Some(lower), "{}", case.both.words);
        assert_eq!(given(&case.mended), Some(higher), "{}", case.mended.words);
        assert_eq!(answered(&case.both), case.both.stated);
        assert_eq!(answered(&case.mended), case.mended.stated);
    }
}
