//! The vectors of the attributes, the check and the engine as a whole.

use std::collections::{BTreeMap, BTreeSet};

use conformance::attribute_cases::attribute_cases;
use conformance::attribute_vectors::*;
use conformance::attributes::{attributes, exact_flow_sample};
use conformance::check::check;
use conformance::check_cases::check_cases;
use conformance::check_vectors::*;
use conformance::engine_cases::engine_cases;
use conformance::engine_vectors::*;
use conformance::framing::{file_of, whole_strings};
use conformance::machine::{Machine, Step};
use conformance::packets::tcp_sample;
use conformance::rules::*;
use conformance::value::PacketData;
use conformance::vectors::SEED;

/// The strings without those that came before.
fn different(strings: impl Iterator<Item = Vec<u8>>) -> Vec<Vec<u8>> {
    let mut seen = BTreeSet::new();
    strings
        .filter(|octets| seen.insert(octets.clone()))
        .collect()
}

/// How often each line comes, by its first two words.
fn counts(text: &str) -> BTreeMap<String, usize> {
    let mut counts = BTreeMap::new();
    for line in text.lines() {
        let words: Vec<&str> = line.split(' ').take(2).collect();
        *counts.entry(words.join(" ")).or_insert(0) += 1;
    }
    counts
}

#[test]
fn the_situations_come_first() {
    let first = different(attribute_cases().into_iter().map(|case| case.octets));
    assert!(attribute_vectors(SEED).starts_with(&first));
    let first = different(check_cases().into_iter().map(|case| case.set));
    assert!(check_vectors(SEED).starts_with(&first));
    for (pair, case) in engine_vectors(SEED).iter().zip(engine_cases()) {
        assert_eq!((&pair.set, &pair.sample), (&case.set, &case.sample));
    }
}

#[test]
fn a_seed_gives_the_same_vectors() {
    assert_eq!(attribute_vectors(SEED), attribute_vectors(SEED));
    assert_eq!(check_vectors(SEED), check_vectors(SEED));
    assert_eq!(engine_vectors(SEED), engine_vectors(SEED));
    assert_ne!(attribute_vectors(SEED), attribute_vectors(SEED + 1));
    assert_ne!(check_vectors(SEED), check_vectors(SEED + 1));
    assert_ne!(engine_vectors(SEED), engine_vectors(SEED + 1));
}

#[test]
fn the_files_have_their_size() {
    let (samples, sets, pairs) = (
        attribute_vectors(SEED),
        check_vectors(SEED),
        engine_vectors(SEED),
    );
    assert!(samples.len() >= 600 && sets.len() >= 1500 && pairs.len() >= 1000);
    for file in [
        attribute_file(&samples),
        check_file(&sets),
        engine_file(&pairs),
    ] {
        assert!(file.len() < 3_000_000);
    }
}

#[test]
fn a_cut_record_is_not_looked_at() {
    let samples = attribute_vectors(SEED);
    assert!(whole_strings(&attribute_file(&samples))
        .into_iter()
        .eq(&samples));
    let sets = check_vectors(SEED);
    assert!(whole_strings(&check_file(&sets)).into_iter().eq(&sets));
    let pairs = engine_vectors(SEED);
    let file = engine_file(&pairs);
    assert_eq!(pairs_of(&file), pairs);
    assert_eq!(whole_strings(&file).len(), 2 * pairs.len() + 1);
    assert_eq!(engine_answers(&file).lines().count(), pairs.len());
    assert!(whole_strings(&[0, 0, 0]).is_empty());
}

#[test]
fn lines_have_the_format() {
    let tcp = "attributes 2147483655 1 167838211 6 4660 258 1 3232300549 6 65244\n";
    assert_eq!(attribute_answers(&file_of([&tcp_sample()[..]])), tcp);
    assert_eq!(attribute_line(&[]), "no flow sample\n");
    let ignore = Rule::new(IGNORE, 0).to_octets();
    let goto = Rule::new(GOTO, 1).to_octets();
    assert_eq!(
        check_answers(&file_of([&ignore[..], &goto])),
        "accepted\nrefused 37 at 1\n"
    );
    let count = Rule::new(COUNT, 0).with_test(9, 0, 7).to_octets();
    let set = [Rule::new(GOTO_ACT, 2).to_octets(), count].concat();
    let counted = "answer 3 rules 2 key 0 0 0 0 0 7 0 0 0 0 0 0 0 0 0 0 0 0 0 0\n";
    assert_eq!(engine_line(&set, &tcp_sample()), counted);
    assert_eq!(engine_line(&set, &[]), "refused 18 at 0\n");
    assert_eq!(engine_line(&goto, &[]), "refused 37 at 1\n");
}

#[test]
fn all_kinds_of_packet_data_come_often() {
    let mut kinds = BTreeMap::new();
    for octets in attribute_vectors(SEED) {
        let kind = match exact_flow_sample(&octets).map(|flow| flow.packet_data) {
            None => "no flow sample".into(),
            Some(PacketData::Ipv4(_)) => "IPv4 data".into(),
            Some(PacketData::Ipv6(_)) => "IPv6 data".into(),
            Some(PacketData::Header(header)) => format!("header {}", header.protocol),
        };
        *kinds.entry(kind).or_insert(0) += 1;
    }
    // Header protocols 1 to 13, IPv4 and IPv6 data, and no flow samples.
    assert_eq!(kinds.len(), 16);
    for (kind, &count) in &kinds {
        let looked_into = kind == "header 1" || kind == "header 11";
        assert!(count >= if looked_into { 200 } else { 3 }, "{kinds:?}");
    }
}

#[test]
fn packets_with_and_without_ports_come_often() {
    let vectors = attribute_vectors(SEED);
    let flows = vectors
        .iter()
        .filter_map(|octets| exact_flow_sample(octets));
    let peers: Vec<_> = flows.map(|flow| attributes(&flow).peers).collect();
    let zero = peers.iter().filter(|peers| peers.peer_type == 0).count();
    let ports = peers.iter().filter(|peers| peers.source_port != 0).count();
    assert!(zero >= 100 && ports >= 100, "{zero} {ports}");
}

#[test]
fn every_refusal_of_the_check_comes_often() {
    let counts = counts(&check_answers(&check_file(&check_vectors(SEED))));
    for number in 30..=39 {
        assert!(counts[&format!("refused {number}")] >= 20, "{counts:?}");
    }
    assert!(counts["accepted"] >= 500, "{counts:?}");
    assert_eq!(counts.len(), 11);
}

#[test]
fn every_answer_of_the_engine_comes_often() {
    let counts = counts(&engine_answers(&engine_file(&engine_vectors(SEED))));
    for answer in 1..=4 {
        assert!(counts[&format!("answer {answer}")] >= 100, "{counts:?}");
    }
    for number in (30..=39).chain([18]) {
        assert!(counts[&format!("refused {number}")] >= 5, "{counts:?}");
    }
    assert_eq!(counts.len(), 4 + 11);
}

/// The set whose Return breaks 39 for its first Gosub and 37 for a later one.
fn first_39_later_37() -> Vec<u8> {
    let back = Rule::new(RETURN, 3).inside(4, 1);
    let gosub = Rule::new(GOSUB, 4);
    octets_of_rules(&[gosub, Rule::new(IGNORE, 0), gosub, back])
}

#[test]
fn a_return_with_two_faults_is_among_them() {
    let set = first_39_later_37();
    assert!(check_vectors(SEED).contains(&set));
    assert!(engine_vectors(SEED).iter().any(|pair| pair.set == set));
    assert_eq!(check_line(&set), "refused 37 at 4\n");
}

#[test]
fn sets_of_all_lengths_are_accepted() {
    let mut lengths = BTreeSet::new();
    for set in check_vectors(SEED) {
        if let Ok(rules) = check(&set) {
            lengths.insert(rules.len());
        }
    }
    assert!(lengths.contains(&1) && lengths.contains(&255));
    assert!(lengths.len() >= 100, "{}", lengths.len());
}

/// The forms that an accepted set has.
fn forms(rules: &[Rule]) -> Vec<&'static str> {
    let homes: BTreeSet<u8> = rules.iter().map(|rule| rule.home).collect();
    let gosubs_to = |home: u8| {
        let aimed = move |rule: &&Rule| rule.is_gosub() && rule.parameter == home;
        rules.iter().filter(aimed)
    };
    let several = |rule: &Rule| rule.is_return() && gosubs_to(rule.home).count() > 1;
    let from = |home: u8| {
        gosubs_to(home)
            .map(|rule| rule.home)
            .collect::<BTreeSet<u8>>()
    };
    let two_homes = |rule: &Rule| rule.is_return() && from(rule.home).len() > 1;
    let returns = |rule: &Rule| rule.is_return() && gosubs_to(rule.home).count() == 1;
    let all = [
        ("several subroutines", homes.len() > 3),
        ("depth 4", rules.iter().any(|rule| rule.depth == 4)),
        ("held 16", rules.iter().any(|rule| rule.held == 16)),
        ("push", rules.iter().any(Rule::is_push)),
        ("PopTo", rules.iter().any(Rule::is_pop)),
        ("Return of one Gosub", rules.iter().any(returns)),
        ("Return of several Gosubs", rules.iter().any(several)),
        ("Return to two subroutines", rules.iter().any(two_homes)),
    ];
    all.into_iter()
        .filter(|(_, has)| *has)
        .map(|(form, _)| form)
        .collect()
}

#[test]
fn accepted_sets_have_every_form() {
    let mut counts = BTreeMap::new();
    let situations = different(check_cases().into_iter().map(|case| case.set));
    for set in check_vectors(SEED).iter().skip(situations.len()) {
        for form in check(set).map_or_else(|_| Vec::new(), |rules| forms(&rules)) {
            *counts.entry(form).or_insert(0) += 1;
        }
    }
    assert_eq!(counts.len(), 8);
    assert!(counts.values().all(|&count| count >= 20), "{counts:?}");
}

/// The greatest numbers of calls and items in the run of a pair.
fn reach(pair: &Pair) -> Option<(usize, usize)> {
    let rules = check(&pair.set).ok()?;
    let flow = exact_flow_sample(&pair.sample)?;
    let mut machine = Machine::new(&rules, attributes(&flow));
    let (mut calls, mut items) = (0, 0);
    while let Step::Goes = machine.step() {
        calls = calls.max(machine.calls.len());
        items = items.max(machine.items.len());
    }
    Some((calls, items))
}

#[test]
fn runs_reach_the_limits() {
    let pairs = engine_vectors(SEED);
    let random = pairs.iter().skip(engine_cases().len());
    let reached: Vec<(usize, usize)> = random.filter_map(reach).collect();
    for calls in 0..=4 {
        let count = reached.iter().filter(|reach| reach.0 == calls).count();
        assert!(count >= 5, "{calls} calls: {count}");
    }
    for items in 0..=16 {
        let count = reached.iter().filter(|reach| reach.1 >= items).count();
        assert!(count >= 5, "{items} items: {count}");
    }
}
