//! The check of rule sets: refusals 30 to 39, with the rule named.

use std::fmt;

use crate::attributes::is_attribute;
use crate::rules::*;

/// The greatest depth that a rule may declare.
pub const MOST_CALLS: u8 = 4;
/// The most items that a rule may declare as held.
pub const MOST_ITEMS: u8 = 16;

/// A refusal of a rule set, or of the octets given with it.
#[derive(Clone, Copy, Debug, PartialEq, Eq)]
pub struct RuleRefusal {
    /// The refusal's number: 30 to 39 of the set, 18 of the octets with it.
    pub number: u32,
    /// The rule named; 0 where none is.
    pub rule: usize,
}

impl fmt::Display for RuleRefusal {
    fn fmt(&self, out: &mut fmt::Formatter) -> fmt::Result {
        write!(out, "refused {} at {}", self.number, self.rule)
    }
}

/// The rules of an accepted set, or the refusal.
pub fn check(octets: &[u8]) -> Result<Vec<Rule>, RuleRefusal> {
    let cut = !octets.len().is_multiple_of(RULE_OCTETS);
    if octets.is_empty() || cut || octets.len() / RULE_OCTETS > MOST_RULES {
        return Err(RuleRefusal {
            number: 30,
            rule: 0,
        });
    }
    let rules = rules_of(octets);
    for (rule, own) in (1..).zip(&rules) {
        if let Some(number) = first_broken(&rules, rule, own) {
            return Err(RuleRefusal { number, rule });
        }
    }
    Ok(rules)
}

/// The lowest number that rule `number` of the set breaks.
fn first_broken(rules: &[Rule], number: usize, rule: &Rule) -> Option<u32> {
    let broken = tested(rules, number, rule).into_iter();
    let mut broken = broken.filter(|(_, broken)| *broken);
    broken.next().map(|(refusal, _)| refusal)
}

/// All numbers from 31 on that the rule at this number of the set breaks, the
/// lowest first; none where there is no such rule.
pub fn broken_numbers(rules: &[Rule], number: usize) -> Vec<u32> {
    let tested = rule_at(rules, number).map(|rule| tested(rules, number, rule));
    let broken = tested.into_iter().flatten();
    broken
        .filter_map(|(refusal, broken)| broken.then_some(refusal))
        .collect()
}

/// The numbers in the order of the tests, and whether the rule breaks each.
fn tested(rules: &[Rule], number: usize, rule: &Rule) -> [(u32, bool); 9] {
    let begins_with_something = rule.home != 0 || rule.depth != 0 || rule.held != 0;
    [
        (31, rule.mark != MARK),
        (32, !is_attribute(rule.attribute)),
        (33, !is_opcode(rule.opcode)),
        (34, rule.depth > MOST_CALLS || rule.held > MOST_ITEMS),
        (35, number == 1 && begins_with_something),
        (36, rule.is_return() && rule.home == 0),
        (37, leads_nowhere(rules, number, rule)),
        (38, breaks_queue(rule)),
        (39, contradicted(rules, number, rule)),
    ]
}

/// Whether a rule may have the opcode.
fn is_opcode(opcode: u8) -> bool {
    (IGNORE..=POP_TO_ACT).contains(&opcode) && opcode != ASSIGN && opcode != ASSIGN_ACT
}

/// The rules aimed as Gosubs at this home, with their numbers.
fn gosubs_to(rules: &[Rule], home: u8) -> impl Iterator<Item = (usize, &Rule)> {
    let aimed = move |(_, rule): &(usize, &Rule)| rule.is_gosub() && rule.parameter == home;
    (1..).zip(rules).filter(aimed)
}

/// 37: a goto that does not go forward to a rule, or a Return that does not
/// come back to a rule for some Gosub.
fn leads_nowhere(rules: &[Rule], number: usize, rule: &Rule) -> bool {
    let parameter = usize::from(rule.parameter);
    if rule.has_goto_flag() {
        return parameter <= number || parameter > rules.len();
    }
    let misses = |(gosub, _): (usize, &Rule)| gosub + parameter > rules.len();
    rule.is_return() && (parameter == 0 || gosubs_to(rules, rule.home).any(misses))
}

/// 38: PopTo without an item, or one more item than a queue may have.
fn breaks_queue(rule: &Rule) -> bool {
    let adds = rule.is_push() || rule.is_count();
    rule.is_pop() && rule.held == 0 || adds && rule.held == MOST_ITEMS
}

/// What a rule declares of the machine on arrival.
#[derive(Clone, Copy, Debug, PartialEq, Eq)]
struct Declared {
    home: i32,
    depth: i32,
    held: i32,
}

fn declared(rule: &Rule) -> Declared {
    Declared {
        home: rule.home.into(),
        depth: rule.depth.into(),
        held: rule.held.into(),
    }
}

/// 39: a successor declares otherwise.
fn contradicted(rules: &[Rule], number: usize, rule: &Rule) -> bool {
    let otherwise = |(successor, expected): &(usize, Declared)| {
        rule_at(rules, *successor).is_some_and(|rule| declared(rule) != *expected)
    };
    successors(rules, number, rule).iter().any(otherwise)
}

/// The numbers of the rule's successors with what each has to declare.
fn successors(rules: &[Rule], number: usize, rule: &Rule) -> Vec<(usize, Declared)> {
    let mut all = Vec::new();
    if rule.mask != 0 || rule.value != 0 {
        all.push((number + 1, declared(rule)));
    }
    if rule.has_goto_flag() {
        all.push((rule.parameter.into(), after_goto(rule)));
    }
    if rule.is_return() {
        all.extend(comebacks(rules, rule));
    }
    all
}

/// What the target of a rule's goto has to declare.
fn after_goto(rule: &Rule) -> Declared {
    let own = declared(rule);
    if rule.is_gosub() {
        return Declared {
            home: rule.parameter.into(),
            depth: own.depth + 1,
            ..own
        };
    }
    let change = i32::from(rule.is_push()) - i32::from(rule.is_pop());
    Declared {
        held: own.held + change,
        ..own
    }
}

/// Where a Return comes back to, for every Gosub aimed at its home.
fn comebacks(rules: &[Rule], own: &Rule) -> Vec<(usize, Declared)> {
    let comeback = |(number, gosub): (usize, &Rule)| {
        let place = number + usize::from(own.parameter);
        let expected = Declared {
            held: own.held.into(),
            ..declared(gosub)
        };
        (place, expected)
    };
    gosubs_to(rules, own.home).map(comeback).collect()
}
