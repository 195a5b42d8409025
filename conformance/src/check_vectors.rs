//! The check's vectors: the situations, then the random sets of a seed; and
//! their two files.

use std::collections::BTreeSet;

use crate::attributes::{attributes, Attributes};
use crate::check::{check, MOST_ITEMS};
use crate::check_cases::check_cases;
use crate::framing::{file_of, whole_strings};
use crate::random::Random;
use crate::random_samples::flow_sample;
use crate::rule_changes::{faults_of_one_rule, return_and_gosubs, several_changes};
use crate::rule_damage::{aimed_miss, near_miss, AIMS};
use crate::rule_generator::{accepted_set, any_plan};
use crate::rule_layout::Plan;
use crate::rules::*;
use crate::small_rule_sets::small_set;

/// How many accepted sets there are, and near misses of each.
const SETS: usize = 400;
const MISSES: usize = 3;

/// How many sets there are of each rare form.
const RARE: usize = 20;

/// All sets for a seed, none twice.
pub fn check_vectors(seed: u64) -> Vec<Vec<u8>> {
    let mut random = Random::new(seed);
    let mut all: Vec<Vec<u8>> = check_cases().into_iter().map(|case| case.set).collect();
    for turn in 0..SETS {
        let rules = any_set(&mut random);
        all.push(octets_of_rules(&rules));
        all.extend((0..MISSES).map(|_| near_miss(&mut random, &rules)));
        let aim = AIMS[turn % AIMS.len()];
        all.push(aimed_miss(&mut random, &rules, aim));
        all.extend(crowded_sets(&mut random));
    }
    all.extend(rare_sets(&mut random));
    all.extend(longest_sets(&mut random));
    let mut seen = BTreeSet::new();
    all.retain(|set| seen.insert(set.clone()));
    all
}

/// Small sets at random, and short ones with several changes and faults or
/// with a Return and Gosubs.
pub fn crowded_sets(random: &mut Random) -> Vec<Vec<u8>> {
    let length = 1 + random.below(12);
    let rules = set_of(random, length);
    let mut sets = vec![several_changes(random, &rules)];
    sets.extend((0..3).map(|_| faults_of_one_rule(random, &rules)));
    sets.extend((0..3).map(|_| return_and_gosubs(random, &rules)));
    sets.extend((0..4).map(|_| octets_of_rules(&small_set(random))));
    sets
}

/// Any accepted set.
pub fn any_set(random: &mut Random) -> Vec<Rule> {
    let rules = any_length(random);
    set_of(random, rules)
}

/// Accepted sets of forms that are rare among all: Gosubs of two subroutines
/// aimed at a third one, and a full queue.
fn rare_sets(random: &mut Random) -> Vec<Vec<u8>> {
    let calling = |plan: Plan| Plan {
        calls: 5,
        changes: 0,
        ..plan
    };
    let filling = |plan: Plan| Plan {
        calls: 1,
        changes: 7,
        adds: 8,
        ..plan
    };
    let full = |rules: &[Rule]| rules.iter().any(|rule| rule.held == MOST_ITEMS);
    let mut sets = Vec::new();
    for _ in 0..RARE {
        sets.push(set_with(random, calling, called_from_two));
        sets.push(set_with(random, filling, full));
    }
    sets
}

/// The first of some accepted sets that has the form, if one has.
fn set_with(
    random: &mut Random,
    plan: impl Fn(Plan) -> Plan,
    has_form: impl Fn(&[Rule]) -> bool,
) -> Vec<u8> {
    let packets = some_packets(random);
    let mut rules = Vec::new();
    for _ in 0..400 {
        let plan = plan(any_plan(random, 60));
        rules = accepted_set(random, &plan, &packets);
        if has_form(&rules) {
            break;
        }
    }
    octets_of_rules(&rules)
}

/// Whether a Return is there for Gosubs of two different homes.
fn called_from_two(rules: &[Rule]) -> bool {
    let mut returns = rules.iter().filter(|rule| rule.is_return());
    returns.any(|back| {
        let aimed = |rule: &&Rule| rule.is_gosub() && rule.parameter == back.home;
        let mut homes = rules.iter().filter(aimed).map(|rule| rule.home);
        let first = homes.next();
        homes.any(|home| Some(home) != first)
    })
}

/// An accepted set of so many rules.
fn set_of(random: &mut Random, rules: usize) -> Vec<Rule> {
    let plan = any_plan(random, rules);
    let packets = some_packets(random);
    accepted_set(random, &plan, &packets)
}

/// The attributes of a few random samples.
fn some_packets(random: &mut Random) -> Vec<Attributes> {
    (0..3).map(|_| attributes(&flow_sample(random))).collect()
}

/// 1 to 255, small ones more often.
pub fn any_length(random: &mut Random) -> usize {
    let limit = [8, 60, 60, 255][random.below(4)];
    1 + random.below(limit)
}

/// Sets of 255 rules, and each with one more.
fn longest_sets(random: &mut Random) -> Vec<Vec<u8>> {
    let mut sets = Vec::new();
    for _ in 0..8 {
        let rules = set_of(random, MOST_RULES);
        let longer = [octets_of_rules(&rules), octets_of_rules(&rules[..1])].concat();
        sets.extend([octets_of_rules(&rules), longer]);
    }
    sets
}

/// The sets as a file, with a cut one at its end.
pub fn check_file(sets: &[Vec<u8>]) -> Vec<u8> {
    let mut file = file_of(sets.iter().map(Vec::as_slice));
    file.extend([0, 0, 0, 16, MARK[0], MARK[1], 0, IGNORE]);
    file
}

/// The text that answers a file.
pub fn check_answers(file: &[u8]) -> String {
    whole_strings(file).into_iter().map(check_line).collect()
}

/// The line that answers a set.
pub fn check_line(set: &[u8]) -> String {
    match check(set) {
        Ok(_) => "accepted\n".into(),
        Err(refusal) => format!("{refusal}\n"),
    }
}
