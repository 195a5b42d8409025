//! Rule sets with several changes: two to four fields, half of the time of one
//! rule, and one to four faults aimed at the numbers of one rule; and Returns
//! with right and wrong Gosubs. Not every one makes a set that is refused.

use crate::attributes::VALUED;
use crate::check::{MOST_CALLS, MOST_ITEMS};
use crate::random::Random;
use crate::rule_damage::no_attribute;
use crate::rules::*;

/// The set with two to four fields changed, half of the time of one rule.
pub fn several_changes(random: &mut Random, rules: &[Rule]) -> Vec<u8> {
    let mut rules = rules.to_vec();
    let places = random.several(rules.len());
    if places.iter().all(|&place| place == places[0]) {
        silence_before(random, &mut rules, places[0]);
    }
    for place in places {
        change_field(random, &mut rules, place);
    }
    octets_of_rules(&rules)
}

/// Half of the time the rules before this place are silenced.
fn silence_before(random: &mut Random, rules: &mut [Rule], place: usize) {
    if random.below(2) == 0 {
        silence(&mut rules[..place]);
    }
}

/// Makes rules such that none has a successor, and so none is named but for
/// what it declares. What they declare stays.
fn silence(rules: &mut [Rule]) {
    for rule in rules {
        *rule = Rule::new(IGNORE, rule.parameter)
            .inside(rule.home, rule.depth)
            .holding(rule.held);
    }
}

/// One of the values.
fn one_of<T: Copy>(random: &mut Random, values: &[T]) -> T {
    values[random.below(values.len())]
}

/// Gives one field of a rule another value.
fn change_field(random: &mut Random, rules: &mut [Rule], place: usize) {
    let (own, count) = (place as u8 + 1, rules.len() as u8);
    let rule = &mut rules[place];
    match random.below(10) {
        0 => rule.mark[random.below(2)] ^= 1 << random.below(8),
        1 => rule.attribute = any_attribute(random),
        2 | 3 => rule.opcode = random.below(19) as u8,
        4 => (rule.mask, rule.value) = one_of(random, &[(0, 0), (1, 0), (0, 1), (1, 1)]),
        5 | 6 => {
            let values = [
                0,
                own - 1,
                own,
                own.wrapping_add(1),
                count,
                count.wrapping_add(1),
            ];
            rule.parameter = one_of(random, &values);
        }
        7 => rule.home = one_of(random, &[0, own, own - 1, own.wrapping_add(1), count]),
        8 => rule.depth = random.below(7) as u8,
        _ => rule.held = one_of(random, &[0, 1, 2, 15, 16, 17, 18]),
    }
}

/// An attribute of the list, or a number of none.
fn any_attribute(random: &mut Random) -> u8 {
    match random.below(2) {
        0 => one_of(random, &VALUED),
        _ => no_attribute(random),
    }
}

/// The set with faults at one rule, aimed at one to four of the numbers 31 to
/// 39; a later one may undo an earlier one. Half of the time it is rule 1.
pub fn faults_of_one_rule(random: &mut Random, rules: &[Rule]) -> Vec<u8> {
    let mut rules = rules.to_vec();
    let place = random.below(rules.len()) * random.below(2);
    silence_before(random, &mut rules, place);
    for _ in 0..1 + random.below(4) {
        let number = 31 + random.below(9);
        aim(random, &mut rules, place, number);
    }
    octets_of_rules(&rules)
}

/// Makes the rule at this place break a number, if it can.
fn aim(random: &mut Random, rules: &mut [Rule], place: usize, number: usize) {
    match number {
        37 => lead_nowhere(random, rules, place),
        39 => contradict(random, rules, place),
        _ => break_field(random, &mut rules[place], number),
    }
}

/// 31 to 36 and 38, by the rule's own fields. 35 is broken in rule 1 only.
fn break_field(random: &mut Random, rule: &mut Rule, number: usize) {
    match number {
        31 => rule.mark[random.below(2)] ^= 1 << random.below(8),
        32 => rule.attribute = no_attribute(random),
        33 => rule.opcode = one_of(random, &[0, ASSIGN, ASSIGN_ACT, 18, 255]),
        34 => match random.below(2) {
            0 => rule.depth = MOST_CALLS + 1 + random.below(3) as u8,
            _ => rule.held = MOST_ITEMS + 1 + random.below(3) as u8,
        },
        35 => match random.below(3) {
            0 => rule.home = 1 + random.below(9) as u8,
            1 => rule.depth = 1 + random.below(4) as u8,
            _ => rule.held = 1 + random.below(16) as u8,
        },
        36 => (rule.opcode, rule.home) = (RETURN, 0),
        _ if random.below(2) == 0 => {
            rule.opcode = POP_TO + random.below(2) as u8;
            rule.held = 0;
        }
        _ => {
            rule.opcode = one_of(random, &[3, 4, 12, 13, 14, 15]);
            rule.held = MOST_ITEMS;
        }
    }
}

/// 37: the parameter of a goto, or of a Return with or without a Gosub that is
/// aimed at its home.
fn lead_nowhere(random: &mut Random, rules: &mut [Rule], place: usize) {
    let (own, count) = (place as u8 + 1, rules.len() as u8);
    if !rules[place].has_goto_flag() {
        rules[place].opcode = one_of(random, &[RETURN, GOTO, GOSUB]);
    }
    let nowhere = [0, own - 1, own, count.wrapping_add(1), 255];
    rules[place].parameter = one_of(random, &nowhere);
    if rules[place].is_return() && random.below(2) == 0 {
        let home = rules[place].home;
        aim_gosub(random, rules, place, home);
    }
}

/// Makes a rule at another place a Gosub to this home, if there is one.
fn aim_gosub(random: &mut Random, rules: &mut [Rule], place: usize, home: u8) {
    let other = random.below(rules.len());
    if other != place {
        rules[other].opcode = GOSUB + random.below(2) as u8;
        rules[other].parameter = home;
    }
}

/// 39: what a successor declares. The next rule is one where a test can fail.
fn contradict(random: &mut Random, rules: &mut [Rule], place: usize) {
    let mut successor = place + 1;
    if rules[place].has_goto_flag() && random.below(2) == 0 {
        successor = usize::from(rules[place].parameter).wrapping_sub(1);
    } else if rules[place].is_return() && random.below(2) == 0 {
        let home = rules[place].home;
        aim_gosub(random, rules, place, home);
    } else {
        (rules[place].mask, rules[place].value) = one_of(random, &[(1, 0), (0, 1)]);
    }
    if let Some(other) = rules.get_mut(successor).filter(|_| successor != place) {
        match random.below(3) {
            0 => other.home ^= 1,
            1 => other.depth ^= 1,
            _ => other.held ^= 1,
        }
    }
}

/// The set with a Return and one to three Gosubs aimed at its home, before it
/// and behind it, right ones and ones with a wrong field. Where the Return
/// comes back for a Gosub, the rule mostly declares what it has to.
pub fn return_and_gosubs(random: &mut Random, rules: &[Rule]) -> Vec<u8> {
    let mut rules = rules.to_vec();
    let count = rules.len().max(4) + random.below(3);
    rules.resize(count, Rule::new(IGNORE, 0));
    silence(&mut rules);
    let back = 1 + random.below(count - 1);
    let home = 1 + random.below(count + 1) as u8;
    let parameter = 1 + random.below(count / 2) as u8;
    rules[back] = Rule::new(RETURN, parameter)
        .inside(home, random.below(5) as u8)
        .holding(random.below(3) as u8);
    for _ in 0..1 + random.below(3) {
        let place = random.below(count);
        if place != back {
            put_gosub(random, &mut rules, place, back);
        }
    }
    octets_of_rules(&rules)
}

/// Makes the rule at this place a Gosub aimed at the home of the Return at the
/// place `back`, at times with a wrong field, and its target and the rule
/// where the Return comes back such as they have to be, mostly.
fn put_gosub(random: &mut Random, rules: &mut [Rule], place: usize, back: usize) {
    let own = rules[back];
    let gosub = &mut rules[place];
    gosub.opcode = GOSUB + random.below(2) as u8;
    gosub.parameter = own.home;
    if place > back && random.below(3) > 0 {
        match random.below(6) {
            0 => gosub.mark[random.below(2)] ^= 1 << random.below(8),
            1 => gosub.attribute = no_attribute(random),
            2 | 3 => gosub.depth = MOST_CALLS + 1 + random.below(3) as u8,
            _ => gosub.held = MOST_ITEMS + 1 + random.below(3) as u8,
        }
    }
    let gosub = *gosub;
    let target = usize::from(own.home) - 1;
    let comeback = place + usize::from(own.parameter);
    for (successor, expected) in [
        (target, gosub.inside(own.home, gosub.depth.wrapping_add(1))),
        (comeback, gosub.holding(own.held)),
    ] {
        let fits = successor != back && successor != place && random.below(8) > 0;
        if let Some(rule) = rules.get_mut(successor).filter(|_| fits) {
            *rule = rule
                .inside(expected.home, expected.depth)
                .holding(expected.held);
        }
    }
}
