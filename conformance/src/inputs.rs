//! Inputs for tests that hold two programs against each other, each from a
//! seed or fixed, and cheap to make.

use crate::attribute_vectors::{attribute_vectors, random_octets};
use crate::bases::{counter_bases, flow_bases};
use crate::captures::small_captures;
use crate::cases::{beginning, header_datagram};
use crate::check_cases::check_cases;
use crate::check_vectors::{any_set, crowded_sets};
use crate::damage::scramble;
use crate::edges::of_length;
use crate::engine_vectors::{engine_vectors, pairs_of_one_set, Pair};
use crate::grammar::MAX_DATAGRAM_SIZE;
use crate::ledger_cases::situation_records;
use crate::ledger_records::Record;
use crate::ledger_runs::{run, MIXES};
use crate::listing_cases::listing_cases;
use crate::random::Random;
use crate::random_captures::{bad_end, changed_records, random_records};
use crate::random_datagrams::{any_datagram, valid_datagram};
use crate::random_writes::any_call;
use crate::reader_edges::long_situations;
use crate::rule_changes::{faults_of_one_rule, several_changes};
use crate::rule_damage::{aimed_miss, near_miss, AIMS};
use crate::rule_generator::{accepted_set, any_plan};
use crate::rule_sets::{nested_calls, pushes};
use crate::rules::{octets_of_rules, Rule, COUNT_PKT};
use crate::vectors::vectors;
use crate::write_calls::WriteCall;
use crate::write_cases::write_cases;

/// The seed of the inputs that are fixed.
const FIXED: u64 = 1;

/// Endless datagrams: the vectors of the seed and the long situations, then
/// valid ones of every form, ones damaged at any item, at several items or cut
/// anywhere, and now and then ones of about 65,507 octets.
pub fn datagrams(seed: u64) -> impl Iterator<Item = Vec<u8>> {
    let first = vectors(seed).into_iter().map(|vector| vector.octets);
    let long = long_situations().into_iter().map(|own| own.octets);
    let mut random = Random::new(seed);
    let further = std::iter::repeat_with(move || one_datagram(&mut random));
    first.chain(long).chain(further)
}

/// A datagram of any kind.
fn one_datagram(random: &mut Random) -> Vec<u8> {
    match random.below(500) {
        0 => about_the_longest(random),
        1..=80 => {
            let mut octets = valid_datagram(random).octets;
            octets.truncate(random.below(octets.len()));
            octets
        }
        _ => any_datagram(random),
    }
}

/// A datagram of 65,500 to 65,512 octets, well formed but for its end.
fn about_the_longest(random: &mut Random) -> Vec<u8> {
    let well_formed = MAX_DATAGRAM_SIZE - 7 + 4 * random.below(4);
    let length = MAX_DATAGRAM_SIZE - 7 + random.below(13);
    let mut octets = of_length(random, well_formed);
    octets.resize(length, 0);
    octets
}

/// Every beginning of datagrams that together have every form, from no octet
/// to all.
pub fn truncations() -> impl Iterator<Item = Vec<u8>> {
    let mut random = Random::new(FIXED);
    let mut bases = flow_bases(&mut random);
    bases.extend(counter_bases(&mut random));
    bases.into_iter().flat_map(|base| {
        let lengths = 0..=base.octets.len();
        lengths.map(move |length| base.octets.iter().copied().take(length).collect())
    })
}

/// Short datagrams with one octet changed to every other value.
pub fn octet_changes() -> impl Iterator<Item = Vec<u8>> {
    let mut datagrams = vec![beginning(0), header_datagram(5, &[1, 2, 3, 4, 5, 0, 0, 0])];
    let bases = flow_bases(&mut Random::new(FIXED));
    datagrams.extend(bases.into_iter().map(|base| base.octets));
    datagrams.into_iter().flat_map(changes)
}

/// The octets with each of them changed to every other value.
fn changes(octets: Vec<u8>) -> impl Iterator<Item = Vec<u8>> {
    let places = 0..octets.len();
    let all = places.flat_map(|place| (1..=u8::MAX).map(move |change| (place, change)));
    all.map(move |(place, change)| {
        let mut changed = octets.clone();
        if let Some(octet) = changed.get_mut(place) {
            *octet ^= change;
        }
        changed
    })
}

/// Near misses of any kind for each accepted set.
const MISSES: usize = 8;

/// Endless rule sets: the situations of the check, then accepted sets, each
/// with near misses of any kind and one aimed at every refusal, sets with two
/// to four fields changed, sets with up to four faults of one rule, and small
/// sets at random.
pub fn rule_sets(seed: u64) -> impl Iterator<Item = Vec<u8>> {
    let mut random = Random::new(seed);
    let situations = check_cases().into_iter().map(|case| case.set);
    let batches = std::iter::repeat_with(move || set_and_misses(&mut random));
    situations.chain(batches.flatten())
}

/// An accepted set and its near misses.
fn set_and_misses(random: &mut Random) -> Vec<Vec<u8>> {
    let rules = any_set(random);
    let mut all = vec![octets_of_rules(&rules)];
    all.extend((0..MISSES).map(|_| near_miss(random, &rules)));
    all.extend(AIMS.map(|aim| aimed_miss(random, &rules, aim)));
    all.extend((0..MISSES).map(|_| several_changes(random, &rules)));
    all.extend((0..MISSES).map(|_| faults_of_one_rule(random, &rules)));
    all.extend((0..4).flat_map(|_| crowded_sets(random)));
    all
}

/// Short rule sets with one octet changed to every other value.
pub fn rule_octet_changes() -> impl Iterator<Item = Vec<u8>> {
    let mut random = Random::new(FIXED);
    let mut pushed = pushes(3);
    pushed.push(Rule::new(COUNT_PKT, 0).holding(3));
    let mut sets = vec![nested_calls(1), nested_calls(4), pushed];
    for rules in [1, 6, 12] {
        let plan = any_plan(&mut random, rules);
        sets.push(accepted_set(&mut random, &plan, &[]));
    }
    sets.into_iter()
        .flat_map(|rules| changes(octets_of_rules(&rules)))
}

/// Endless octets that are flow samples, or nearly: the vectors of the
/// attributes, then samples with packets whole, cut and changed, and samples
/// themselves cut and changed.
pub fn flow_samples(seed: u64) -> impl Iterator<Item = Vec<u8>> {
    let mut random = Random::new(seed);
    let further = (0..).map(move |turn| one_flow_sample(&mut random, turn));
    attribute_vectors(seed).into_iter().chain(further)
}

/// Octets that are a flow sample, or nearly.
fn one_flow_sample(random: &mut Random, turn: usize) -> Vec<u8> {
    let mut octets = random_octets(random, turn);
    match random.below(10) {
        0 => octets = scramble(random, octets),
        1 => octets.truncate(random.below(octets.len())),
        _ => {}
    }
    octets
}

/// Endless pairs of a rule set and a sample: the vectors of the engine, then
/// sets with samples that their tests are made for or are not, near misses,
/// and octets that are no sample.
pub fn pairs(seed: u64) -> impl Iterator<Item = Pair> {
    let mut random = Random::new(seed);
    let further = (0..).flat_map(move |turn| pairs_of_one_set(&mut random, turn));
    engine_vectors(seed).into_iter().chain(further)
}

/// Endless runs of ledger operations, each from an emptied table on: the
/// situations as the first, then random ones.
pub fn ledger_runs(seed: u64) -> impl Iterator<Item = Vec<Record>> {
    let mut random = Random::new(seed);
    let mixes = MIXES.iter().cycle();
    let random_runs = mixes.map(move |mix| run(&mut random, mix));
    std::iter::once(situation_records()).chain(random_runs)
}

/// Endless calls of the writer's functions: the situations of the writer, then
/// calls with values right and wrong and buffers long enough or not, at times
/// with several faults at once.
pub fn writes(seed: u64) -> impl Iterator<Item = WriteCall> {
    let situations = write_cases().into_iter().map(|case| case.call);
    let mut random = Random::new(seed);
    situations.chain(std::iter::repeat_with(move || any_call(&mut random)))
}

/// Endless captures: the small samples and the situations of the lister, then
/// random ones of up to 9 records,
/// whole, with a bad end, cut anywhere, with octets changed or with several
/// changes of their heads.
pub fn captures(seed: u64) -> impl Iterator<Item = Vec<u8>> {
    let samples = small_captures().into_iter().map(|sample| sample.capture);
    let situations = listing_cases().into_iter().map(|case| case.capture);
    let mut random = Random::new(seed);
    let further = std::iter::repeat_with(move || one_capture(&mut random));
    samples.chain(situations).chain(further)
}

/// A capture of any kind.
fn one_capture(random: &mut Random) -> Vec<u8> {
    let count = random.below(10);
    let records = random_records(random.hyper()).take(count);
    let mut capture: Vec<u8> = records.flatten().collect();
    match random.below(8) {
        0 | 1 => capture.extend(bad_end(random.hyper())),
        2 => capture.truncate(random.below(capture.len())),
        3 => capture = scramble(random, capture),
        4 | 5 => capture = changed_records(random, count),
        _ => {}
    }
    capture
}
