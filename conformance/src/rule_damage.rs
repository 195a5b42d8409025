//! Near misses: accepted rule sets with one small change. Not every change
//! makes a set that is refused.

use crate::attributes::is_attribute;
use crate::check::MOST_ITEMS;
use crate::random::Random;
use crate::rules::*;

/// The set with one change of any kind.
pub fn near_miss(random: &mut Random, rules: &[Rule]) -> Vec<u8> {
    let mut rules = rules.to_vec();
    match random.below(10) {
        0 => {
            rules.remove(random.below(rules.len()));
        }
        1 => {
            let (one, other) = (random.below(rules.len()), random.below(rules.len()));
            rules.swap(one, other);
        }
        2 => return other_length(random, &rules),
        3..=5 => return other_octet(random, &rules),
        6 => other_declaration(random, &mut rules),
        _ => other_parameter(random, &mut rules),
    }
    octets_of_rules(&rules)
}

/// 1 to 15 octets less or more.
fn other_length(random: &mut Random, rules: &[Rule]) -> Vec<u8> {
    let mut octets = octets_of_rules(rules);
    let difference = 1 + random.below(RULE_OCTETS - 1);
    let length = match random.below(2) {
        0 => octets.len() - difference,
        _ => octets.len() + difference,
    };
    octets.resize(length, MARK[0]);
    octets
}

/// One octet changed, by 1 or to any other.
fn other_octet(random: &mut Random, rules: &[Rule]) -> Vec<u8> {
    let mut octets = octets_of_rules(rules);
    let at = random.below(octets.len());
    octets[at] = other(random, octets[at]);
    octets
}

/// Another octet, often the one before or behind.
fn other(random: &mut Random, octet: u8) -> u8 {
    let difference = [1, 255, 1 + random.below(255) as u8][random.below(3)];
    octet.wrapping_add(difference)
}

/// One of the rules.
fn one_rule<'a>(random: &mut Random, rules: &'a mut [Rule]) -> &'a mut Rule {
    let at = random.below(rules.len());
    &mut rules[at]
}

/// Home, depth or held of one rule changed.
fn other_declaration(random: &mut Random, rules: &mut [Rule]) {
    let rule = one_rule(random, rules);
    match random.below(3) {
        0 => rule.home = other(random, rule.home),
        1 => rule.depth = random.below(6) as u8,
        _ => rule.held = random.below(18) as u8,
    }
}

/// The parameter of one rule that goes somewhere changed, if there is one.
fn other_parameter(random: &mut Random, rules: &mut [Rule]) {
    let goes = |rule: &&mut Rule| rule.has_goto_flag() || rule.is_return();
    let mut going: Vec<&mut Rule> = rules.iter_mut().filter(goes).collect();
    let at = random.below(going.len());
    if let Some(rule) = going.get_mut(at) {
        rule.parameter = other(random, rule.parameter);
    }
}

/// The numbers that a change can be aimed at.
pub const AIMS: [u32; 10] = [30, 31, 32, 33, 34, 35, 36, 37, 38, 39];

/// The set with one change aimed at a refusal with this number.
pub fn aimed_miss(random: &mut Random, rules: &[Rule], number: u32) -> Vec<u8> {
    let mut rules = rules.to_vec();
    match number {
        30 => return other_length(random, &rules),
        35 => first_rule_declared(random, &mut rules),
        36 => main_part_return(random, &mut rules),
        37 => other_parameter(random, &mut rules),
        38 => full_or_empty(random, &mut rules),
        39 => other_declaration(random, &mut rules),
        _ => wrong_field(random, &mut rules, number),
    }
    octets_of_rules(&rules)
}

/// 31 to 34: a field of one rule that is wrong by itself. A rule before it
/// may now find it declared otherwise, and is named first.
fn wrong_field(random: &mut Random, rules: &mut [Rule], number: u32) {
    let rule = one_rule(random, rules);
    match number {
        31 => rule.mark[random.below(2)] ^= 1 << random.below(8),
        32 => rule.attribute = no_attribute(random),
        33 => rule.opcode = [0, ASSIGN, ASSIGN_ACT, 18, 255][random.below(5)],
        _ => rule.depth = 5 + random.below(251) as u8,
    }
}

/// A number of no attribute.
pub fn no_attribute(random: &mut Random) -> u8 {
    let wrong: Vec<u8> = (0..=u8::MAX)
        .filter(|&number| !is_attribute(number))
        .collect();
    wrong[random.below(wrong.len())]
}

fn first_rule_declared(random: &mut Random, rules: &mut [Rule]) {
    match random.below(3) {
        0 => rules[0].home = 1 + random.below(255) as u8,
        1 => rules[0].depth = 1 + random.below(4) as u8,
        _ => rules[0].held = 1 + random.below(16) as u8,
    }
}

/// A rule of the main part made a Return.
fn main_part_return(random: &mut Random, rules: &mut [Rule]) {
    let mut main: Vec<&mut Rule> = rules.iter_mut().filter(|rule| rule.home == 0).collect();
    let at = random.below(main.len());
    main[at].opcode = RETURN;
}

/// A rule with a full queue made to add an item, or one without items made to
/// drop one. The parameter stays as it is.
fn full_or_empty(random: &mut Random, rules: &mut [Rule]) {
    let full = rules.iter().any(|rule| rule.held == MOST_ITEMS);
    let held = if full { MOST_ITEMS } else { 0 };
    let goes = |rule: &&mut Rule| rule.held == held && (full || rule.has_goto_flag());
    let mut going: Vec<&mut Rule> = rules.iter_mut().filter(goes).collect();
    let at = random.below(going.len());
    let Some(rule) = going.get_mut(at) else {
        return;
    };
    rule.opcode = match (full, rule.has_goto_flag()) {
        (true, true) => PUSH_RULE_TO + random.below(4) as u8,
        (true, false) => COUNT + random.below(2) as u8,
        (false, _) => POP_TO + random.below(2) as u8,
    };
}
