//! Random inputs with several faults: that every two faults that can meet do
//! meet, and often.

use std::collections::BTreeMap;

use conformance::attributes::{exact_flow_sample, is_attribute};
use conformance::check::{broken_numbers, check};
use conformance::check_cases::check_cases;
use conformance::check_pairs::IMPOSSIBLE;
use conformance::check_vectors::check_vectors;
use conformance::crowded_writes::crowded_call;
use conformance::encoder::{Encoding, ItemKind};
use conformance::inputs::*;
use conformance::listing::list;
use conformance::listing_cases::listing_cases;
use conformance::random::Random;
use conformance::random_damage::several_damages;
use conformance::random_datagrams::valid_datagram;
use conformance::reader::read;
use conformance::rules::*;
use conformance::small_rule_sets::small_set;
use conformance::value::PacketData;
use conformance::vectors::SEED;
use conformance::write_calls::{Write, WriteCall};
use conformance::writer::start;

/// How often each thing comes.
type Counts<T> = BTreeMap<T, usize>;

/// All pairs of these numbers, the lower one first.
fn pairs_of(numbers: &[u32]) -> Vec<(u32, u32)> {
    let with_higher = |&lower: &u32| {
        let higher = numbers.iter().filter(move |&&other| other > lower);
        higher.map(move |&other| (lower, other))
    };
    numbers.iter().flat_map(with_higher).collect()
}

/// How often the rule named in a set breaks both numbers of a pair, for rule 1
/// and for others.
fn broken_pairs(sets: impl Iterator<Item = Vec<u8>>) -> Counts<(u32, u32, bool)> {
    let mut counts = Counts::new();
    for set in sets {
        let Err(refusal) = check(&set) else { continue };
        let broken = broken_numbers(&rules_of(&set), refusal.rule);
        for (lower, higher) in pairs_of(&broken) {
            *counts
                .entry((lower, higher, refusal.rule == 1))
                .or_default() += 1;
        }
    }
    counts
}

/// That each pair comes so often that can meet, and no other.
fn every_pair_comes(counts: &Counts<(u32, u32, bool)>, least: usize) {
    let all: Vec<u32> = (31..=39).collect();
    for (lower, higher) in pairs_of(&all) {
        for first in [true, false] {
            let count = counts.get(&(lower, higher, first)).copied().unwrap_or(0);
            let has_35 = lower == 35 || higher == 35;
            if IMPOSSIBLE.contains(&(lower, higher)) || has_35 && !first {
                assert_eq!(count, 0, "{lower} with {higher}");
            } else {
                assert!(count >= least, "{lower} with {higher}: {count}");
            }
        }
    }
}

#[test]
fn every_pair_of_broken_numbers_comes_in_the_random_sets() {
    let sets = rule_sets(5).skip(check_cases().len()).take(20_000);
    every_pair_comes(&broken_pairs(sets), 5);
}

#[test]
fn every_pair_of_broken_numbers_comes_in_the_vectors() {
    // The random ones stand behind the situations.
    let situations = check_cases().len();
    let sets = check_vectors(SEED).into_iter().skip(situations);
    let mut counts: Counts<(u32, u32)> = Counts::new();
    for ((lower, higher, _), count) in broken_pairs(sets) {
        *counts.entry((lower, higher)).or_default() += count;
    }
    assert_eq!(counts.len(), 36 - IMPOSSIBLE.len());
    assert!(counts.values().all(|&count| count >= 5), "{counts:?}");
}

/// What can be wrong in a Gosub.
const WRONG_GOSUBS: [(&str, fn(&Rule) -> bool); 5] = [
    ("mark", |rule| rule.mark != MARK),
    ("attribute", |rule| !is_attribute(rule.attribute)),
    ("depth", |rule| rule.depth > 4),
    ("held", |rule| rule.held > 16),
    ("nothing", |_| true),
];

/// Whether a Return is named in the set because of Gosubs of this kind: it is
/// not, or not so, where they are none.
fn named_for(set: &[u8], kind: fn(&Rule) -> bool) -> bool {
    let Err(refusal) = check(set) else {
        return false;
    };
    let mut rules = rules_of(set);
    let named = rule_at(&rules, refusal.rule).is_some_and(Rule::is_return);
    for rule in rules
        .iter_mut()
        .filter(|rule| rule.is_gosub() && kind(rule))
    {
        rule.opcode = IGNORE;
    }
    named && check(&octets_of_rules(&rules)) != Err(refusal)
}

#[test]
fn returns_are_named_for_right_and_wrong_gosubs() {
    let mut counts: Counts<&str> = Counts::new();
    for set in rule_sets(5).skip(check_cases().len()).take(20_000) {
        for (words, kind) in WRONG_GOSUBS {
            *counts.entry(words).or_default() += usize::from(named_for(&set, kind));
        }
    }
    assert!(counts.values().all(|&count| count >= 30), "{counts:?}");
}

#[test]
fn small_sets_get_every_answer() {
    let mut random = Random::new(SEED);
    let mut counts = Counts::new();
    let mut accepted = Counts::new();
    for _ in 0..20_000 {
        let rules = small_set(&mut random);
        match check(&octets_of_rules(&rules)) {
            Ok(_) => *accepted.entry(rules.len()).or_default() += 1,
            Err(own) => *counts.entry(own.number).or_default() += 1,
        }
    }
    assert_eq!(
        counts.keys().copied().collect::<Vec<u32>>(),
        Vec::from_iter(31..=39)
    );
    assert!(counts.values().all(|&count| count >= 200), "{counts:?}");
    assert_eq!(accepted.len(), 8, "{accepted:?}");
    assert!(
        accepted.values().all(|&count: &usize| count >= 20),
        "{accepted:?}"
    );
}

/// How often each IP protocol comes in packets of samples that are looked into
/// and have four octets or more behind their header.
fn ip_protocols() -> [usize; 256] {
    let mut counts = [0; 256];
    let samples = flow_samples(5).take(80_000);
    for flow in samples.filter_map(|octets| exact_flow_sample(&octets)) {
        let PacketData::Header(header) = flow.packet_data else {
            continue;
        };
        let begin = if header.protocol == 1 { 14 } else { 0 };
        let packet = header.header.get(begin..).unwrap_or_default();
        if let [first @ 0x45..=0x4f, _, _, _, _, _, _, _, _, protocol, ..] = *packet {
            let end = 4 * usize::from(first & 15);
            counts[usize::from(protocol)] += usize::from(packet.len() >= end + 4);
        }
    }
    counts
}

#[test]
fn every_ip_protocol_comes_before_ports() {
    let counts = ip_protocols();
    assert!(counts.iter().all(|&count| count >= 5), "{counts:?}");
    assert!(counts[6] >= 1000 && counts[17] >= 1000, "{counts:?}");
    for bit in 0..8 {
        let near = [counts[6 ^ 1 << bit], counts[17 ^ 1 << bit]];
        assert!(near.iter().all(|&count| count >= 50), "{bit}: {near:?}");
    }
}

/// What is told of a datagram with several damages, and whether what is there
/// of the item told is wrong in another way too.
fn told_of(base: &Encoding, damaged: &[u8]) -> (u32, bool) {
    let Err(refusal) = read(damaged) else {
        return (0, false);
    };
    let at = |own: &&conformance::encoder::Item| own.offset == refusal.place;
    let changed = |from: usize, to: usize| {
        let there = from..to.min(damaged.len());
        damaged.get(there.clone()) != base.octets.get(there)
    };
    // An item without octets may stand before another one.
    let item = base.items.iter().filter(at).next_back();
    let both = item.is_some_and(|own| match own.kind {
        ItemKind::StringOctets => {
            let padding = own.offset + own.length - own.padding;
            changed(padding, own.offset + own.length)
        }
        _ => changed(own.offset, own.offset + own.length),
    });
    (refusal.number(), both)
}

#[test]
fn datagrams_with_several_damages_get_every_answer() {
    let mut random = Random::new(SEED);
    let mut counts: Counts<(u32, bool)> = Counts::new();
    for _ in 0..20_000 {
        let base = valid_datagram(&mut random);
        let damaged = several_damages(&mut random, &base);
        *counts.entry(told_of(&base, &damaged)).or_default() += 1;
    }
    let of = |number: u32| counts.iter().filter(move |((own, _), _)| *own == number);
    for number in 0..=13 {
        let count: usize = of(number).map(|(_, count)| count).sum();
        assert!(count >= 50, "{number}: {counts:?}");
    }
    // Missing octets of items whose octets that are there are wrong.
    assert!(counts[&(1, true)] >= 500, "{counts:?}");
}

/// Which of 21, 23, 22 and 20 an append breaks, each looked at by itself; 20
/// only for samples given as octets.
fn faults_of_append(call: &WriteCall) -> Option<Vec<u32>> {
    let (limit, length, octets) = match &call.write {
        Write::Append {
            limit,
            length,
            sample,
        } => (*limit, *length, Some(sample.len())),
        Write::AppendFlow { limit, length, .. } | Write::AppendCounters { limit, length, .. } => {
            (*limit, *length, None)
        }
        _ => return None,
    };
    let so_far = call.buffer.get(..length).map(read);
    let new_end = octets.map_or(0, |octets| length.saturating_add(octets));
    let broken = [
        (
            21,
            !(36..=65_507).contains(&limit) || call.buffer.len() < limit,
        ),
        (23, length > limit || !so_far.is_some_and(|own| own.is_ok())),
        (22, is_no_sample(&call.write)),
        (20, new_end > limit),
    ];
    let broken = broken.into_iter().filter(|(_, broken)| *broken);
    Some(broken.map(|(number, _)| number).collect())
}

/// Whether the sample is refused with all the room that there can be.
fn is_no_sample(write: &Write) -> bool {
    let mut write = write.clone();
    if let Write::Append { limit, length, .. }
    | Write::AppendFlow { limit, length, .. }
    | Write::AppendCounters { limit, length, .. } = &mut write
    {
        (*limit, *length) = (65_507, 24);
    }
    let agent = conformance::value::Address::IpV4([10, 0, 0, 7]).into();
    let mut buffer = vec![0; 65_507];
    assert_eq!(start(&mut buffer, 65_507, &agent, 1, 1), Ok(24));
    write.carry_out(&mut buffer) == Err(22)
}

#[test]
fn every_two_faults_of_an_append_meet() {
    let mut random = Random::new(SEED);
    let mut counts: Counts<(u32, u32)> = Counts::new();
    for _ in 0..4000 {
        let call = crowded_call(&mut random);
        let Some(broken) = faults_of_append(&call) else {
            continue;
        };
        let answer = call.carried_out().0;
        assert_eq!(answer.err(), broken.first().copied().or(answer.err()));
        for (turn, &first) in broken.iter().enumerate() {
            for &second in &broken[turn + 1..] {
                *counts.entry((first, second)).or_default() += 1;
            }
        }
    }
    assert_eq!(counts.len(), 6, "{counts:?}");
    assert!(counts.values().all(|&count| count >= 100), "{counts:?}");
}

#[test]
fn captures_are_bad_behind_refused_records() {
    let texts = captures(5).skip(listing_cases().len()).take(1500);
    let texts = texts.map(|capture| String::from_utf8(list(&capture)).expect("text"));
    let both = |text: &String| text.contains(" refused 1 at ") && text.contains("capture bad");
    let count = texts.filter(both).count();
    assert!(count >= 100, "{count}");
}
