//! The inputs for tests that hold two programs against each other: that they
//! have every answer, and depend on the seed alone.

use std::collections::BTreeMap;

use conformance::attribute_vectors::attribute_vectors;
use conformance::attributes::{attributes, exact_flow_sample};
use conformance::captures::small_captures;
use conformance::check::check;
use conformance::check_cases::check_cases;
use conformance::engine::engine;
use conformance::inputs::*;
use conformance::ledger::Table;
use conformance::ledger_records::carry_out;
use conformance::listing::list;
use conformance::listing_cases::listing_cases;
use conformance::reader::read;
use conformance::reader_edges::long_situations;
use conformance::vectors::vectors;
use conformance::write_calls::Write;
use conformance::write_cases::write_cases;

/// How often each answer comes.
type Counts<T> = BTreeMap<T, usize>;

fn counted<T: Ord>(answers: impl Iterator<Item = T>) -> Counts<T> {
    let mut counts = Counts::new();
    for answer in answers {
        *counts.entry(answer).or_default() += 1;
    }
    counts
}

/// The reader's number; 0 if it accepts.
fn reader_number(octets: &[u8]) -> u32 {
    read(octets).map_or_else(|refusal| refusal.number(), |_| 0)
}

#[test]
fn datagrams_get_every_answer() {
    // Those behind the vectors, which have every answer of themselves.
    let first = vectors(5).len() + long_situations().len();
    let further = || datagrams(5).skip(first).take(20_000);
    let counts = counted(further().map(|octets| reader_number(&octets)));
    for number in 0..=14 {
        let least = if number == 14 { 3 } else { 30 };
        assert!(counts.get(&number) >= Some(&least), "{number}: {counts:?}");
    }
    let long = further().filter(|octets| octets.len() > 60_000).count();
    assert!(long > 20, "{long}");
}

#[test]
fn truncations_are_accepted_only_whole() {
    let counts = counted(truncations().map(|octets| reader_number(&octets)));
    assert_eq!(counts.keys().copied().collect::<Vec<_>>(), [0, 1]);
    // 4 with flow samples, 6 with counter samples; each has octets.
    assert_eq!(counts[&0], 10);
    let whole: usize = counts.values().sum();
    assert!(whole > 1000, "{whole}");
}

#[test]
fn octet_changes_get_every_answer_but_that_of_the_length() {
    let counts = counted(octet_changes().map(|octets| reader_number(&octets)));
    assert_eq!(
        counts.keys().copied().collect::<Vec<_>>(),
        Vec::from_iter(0..14)
    );
}

/// The check's number; 0 if it accepts.
fn check_number(set: &[u8]) -> u32 {
    check(set).map_or_else(|refusal| refusal.number, |_| 0)
}

#[test]
fn rule_sets_get_every_answer() {
    let sets = rule_sets(5).skip(check_cases().len()).take(4000);
    let counts = counted(sets.map(|set| check_number(&set)));
    for number in (30..40).chain([0]) {
        assert!(counts.get(&number) >= Some(&20), "{number}: {counts:?}");
    }
}

#[test]
fn rule_octet_changes_get_every_answer_but_that_of_the_length() {
    let counts = counted(rule_octet_changes().map(|set| check_number(&set)));
    for number in (31..40).chain([0]) {
        assert!(counts.get(&number) >= Some(&20), "{number}: {counts:?}");
    }
}

#[test]
fn flow_samples_have_every_attribute() {
    let samples = flow_samples(5).skip(attribute_vectors(5).len()).take(5000);
    let flows = samples.map(|octets| exact_flow_sample(&octets));
    let known = flows.map(|flow| flow.map(|flow| attributes(&flow).values()));
    let known: Vec<Option<[u32; 10]>> = known.collect();
    let missing = known.iter().filter(|values| values.is_none()).count();
    assert!((500..3000).contains(&missing), "{missing}");
    for place in 0..10 {
        let set = known.iter().flatten().filter(|values| values[place] != 0);
        let set = set.count();
        assert!((500..4500).contains(&set), "{place}: {set}");
    }
}

#[test]
fn pairs_get_every_answer() {
    let further = pairs(5).skip(2000).take(3000);
    let counts = counted(further.map(|pair| match engine(&pair.set, &pair.sample) {
        Ok(outcome) => outcome.answer as u32,
        Err(refusal) => refusal.number,
    }));
    for number in [1, 2, 3, 4, 18].into_iter().chain(30..40) {
        assert!(counts.get(&number) >= Some(&3), "{number}: {counts:?}");
    }
}

#[test]
fn ledger_runs_get_every_answer() {
    let mut table = Table::default();
    let runs = ledger_runs(5).skip(1).take(10);
    let records: Vec<_> = runs.flatten().collect();
    let lines = records.iter().map(|record| carry_out(&mut table, record));
    let counts = counted(lines.filter(|line| line.starts_with("answer ")));
    for number in [0, 40, 41, 42, 43] {
        let line = format!("answer {number}\n");
        assert!(counts.get(&line) >= Some(&20), "{counts:?}");
    }
}

/// The name of the function that is called.
fn name(write: &Write) -> &'static str {
    match write {
        Write::Start { .. } => "start",
        Write::Append { .. } => "append",
        Write::AppendFlow { .. } => "append_flow",
        Write::AppendCounters { .. } => "append_counters",
        Write::Flow(_) => "flow",
        Write::Counters(_) => "counters",
        Write::Header { .. } => "header",
        Write::Ipv4(_) => "ipv4",
        Write::Ipv6(_) => "ipv6",
        Write::Switch(_) => "switch",
        Write::Router { .. } => "router",
        Write::Gateway { .. } => "gateway",
        Write::Segment { .. } => "segment",
        Write::User { .. } => "user",
        Write::Url { .. } => "url",
    }
}

/// The answers that a function can give; 0 is written.
fn possible(name: &str) -> &'static [u32] {
    match name {
        "start" => &[0, 21, 22],
        "append" | "append_flow" | "append_counters" => &[0, 20, 21, 22, 23],
        "ipv4" | "ipv6" | "switch" | "user" => &[0, 20],
        _ => &[0, 20, 22],
    }
}

#[test]
fn writes_get_every_answer_that_is_possible() {
    let calls = writes(5).skip(write_cases().len()).take(20_000);
    let counts = counted(calls.map(|call| {
        let (answer, after) = call.carried_out();
        assert_eq!(after.len(), call.buffer.len());
        match answer {
            Ok(end) => assert_eq!(after[end..], call.buffer[end..]),
            Err(_) => assert_eq!(after, call.buffer),
        }
        (name(&call.write), answer.err().unwrap_or(0))
    }));
    let names: Vec<&str> = counts.keys().map(|(name, _)| *name).collect();
    for name in names {
        let given = counts.keys().filter(|(own, _)| *own == name);
        let given: Vec<u32> = given.map(|(_, number)| *number).collect();
        assert_eq!(given, possible(name), "{name}");
    }
    for (answer, count) in counts {
        assert!(count >= 20, "{answer:?}: {count}");
    }
}

#[test]
fn captures_end_well_and_badly() {
    let first = small_captures().len() + listing_cases().len();
    let texts = captures(5).skip(first).take(600);
    let texts = texts.map(|capture| list(&capture));
    let bad = |text: Vec<u8>| String::from_utf8_lossy(&text).contains("capture bad at");
    let counts = counted(texts.map(bad));
    assert!(counts[&true] > 150 && counts[&false] > 150, "{counts:?}");
}

#[test]
fn inputs_depend_on_the_seed_alone() {
    let some = |seed| {
        let first = vectors(seed).len() + long_situations().len();
        let octets = datagrams(seed).skip(first).take(50);
        let sets = rule_sets(seed).skip(check_cases().len()).take(50);
        let samples = flow_samples(seed).skip(attribute_vectors(seed).len());
        let samples = samples.take(50);
        let first = small_captures().len() + listing_cases().len();
        let captures = captures(seed).skip(first).take(20);
        octets.chain(sets).chain(samples).chain(captures).collect()
    };
    let (one, again, other): (Vec<_>, Vec<_>, Vec<_>) = (some(1), some(1), some(2));
    assert_eq!(one, again);
    assert!(one.iter().zip(&other).filter(|(a, b)| a == b).count() < 40);
    let last = write_cases().len() + 99;
    assert_eq!(writes(1).nth(last), writes(1).nth(last));
    assert_ne!(writes(1).nth(last), writes(2).nth(last));
    assert_eq!(pairs(1).nth(2000), pairs(1).nth(2000));
    assert_eq!(ledger_runs(1).nth(3), ledger_runs(1).nth(3));
}
