//! Small random rule sets: one to eight rules with small numbers in every
//! field, so that gotos, Gosubs and Returns often meet, by chance rightly.

use crate::attributes::{NULL, VALUED};
use crate::random::Random;
use crate::rules::*;

/// The most rules of a small set.
pub const MOST_SMALL: usize = 8;

/// How far the fields of a set go.
struct Habits {
    /// The rules of the set.
    count: usize,
    /// Whether every mark, attribute, opcode and parameter may be one.
    clean: bool,
    /// Of 8 rules, those that declare home, depth and held 0.
    plain: usize,
    /// Of 8 rules, those with mask and value 0.
    untested: usize,
    /// Of 8 rules, those with an opcode without a goto flag.
    ending: usize,
}

/// A small set.
pub fn small_set(random: &mut Random) -> Vec<Rule> {
    let habits = Habits {
        count: 1 + random.below(MOST_SMALL),
        clean: random.below(2) == 0,
        plain: [0, 4, 7, 8][random.below(4)],
        untested: [2, 6, 8][random.below(3)],
        ending: [0, 3, 6][random.below(3)],
    };
    let rules = (1..=habits.count).map(|number| small_rule(random, number, &habits));
    let mut rules: Vec<Rule> = rules.collect();
    if random.below(2) == 0 {
        settle(&mut rules);
    }
    rules
}

/// Makes what the rules lead to declare what it has to, one rule after the
/// other. A later rule may undo it, and Returns are left to chance.
fn settle(rules: &mut [Rule]) {
    for place in 0..rules.len() {
        let rule = rules[place];
        if rule.mask != 0 || rule.value != 0 {
            declare(rules, place + 1, rule);
        }
        let target = usize::from(rule.parameter).wrapping_sub(1);
        if rule.has_goto_flag() && target > place {
            let expected = match (rule.is_gosub(), rule.is_push(), rule.is_pop()) {
                (true, ..) => rule.inside(rule.parameter, rule.depth.wrapping_add(1)),
                (_, true, _) => rule.holding(rule.held.wrapping_add(1)),
                (.., true) => rule.holding(rule.held.wrapping_sub(1)),
                _ => rule,
            };
            declare(rules, target, expected);
        }
    }
}

/// Makes the rule at this place declare what another does.
fn declare(rules: &mut [Rule], place: usize, other: Rule) {
    if let Some(rule) = rules.get_mut(place) {
        *rule = rule.inside(other.home, other.depth).holding(other.held);
    }
}

fn small_rule(random: &mut Random, number: usize, habits: &Habits) -> Rule {
    let last = habits.clean && number == habits.count;
    let ends = last || random.below(8) < habits.ending;
    let parameter = parameter(random, number, habits);
    let mut rule = Rule::new(opcode(random, ends, habits.clean), parameter);
    if !habits.clean && random.below(24) == 0 {
        rule.mark[random.below(2)] ^= 1 << random.below(8);
    }
    rule.attribute = attribute(random, habits.clean);
    if random.below(8) >= habits.untested {
        (rule.mask, rule.value) = (small_word(random), small_word(random));
    }
    let first_is_plain = number == 1 && random.below(8) > 0;
    if first_is_plain || random.below(8) < habits.plain {
        return rule;
    }
    let depth = random.below(6) as u8;
    rule.inside(random.below(10) as u8, depth)
        .holding(items(random))
}

/// Mostly one that a set may have.
fn opcode(random: &mut Random, ends: bool, clean: bool) -> u8 {
    match random.below(24) {
        0 if !clean => random.below(20) as u8,
        1 if !clean => random.hyper() as u8,
        _ if ends => 1 + random.below(5) as u8,
        _ => [6, 7, 10, 11, 12, 13, 14, 15, 16, 17][random.below(10)],
    }
}

/// Any small one, or a rule behind.
fn parameter(random: &mut Random, number: usize, habits: &Habits) -> u8 {
    match random.below(2) {
        0 if !habits.clean => random.below(10) as u8,
        _ => (number + 1 + random.below(habits.count - number)) as u8,
    }
}

/// Mostly one of the list.
fn attribute(random: &mut Random, clean: bool) -> u8 {
    match random.below(24) {
        0 if !clean => random.below(25) as u8,
        1 if !clean => random.hyper() as u8,
        2..=9 => NULL,
        _ => VALUED[random.below(VALUED.len())],
    }
}

/// Mostly 0 or 1.
fn small_word(random: &mut Random) -> u32 {
    match random.below(8) {
        0 => random.word(),
        _ => random.below(2) as u32,
    }
}

/// Few items, now and then about the most.
fn items(random: &mut Random) -> u8 {
    match random.below(6) {
        0 => 15 + random.below(3) as u8,
        _ => random.below(4) as u8,
    }
}
