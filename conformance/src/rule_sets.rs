//! Rule sets written by hand that the check's and the engine's situations
//! share.

use crate::attributes::{NULL, VALUED};
use crate::rules::*;

/// So many rules Null & 0 = 0: Ignore. None has a successor.
pub fn lone_rules(count: usize) -> Vec<Rule> {
    vec![Rule::new(IGNORE, 0); count]
}

/// So many lone rules with another one at a number.
pub fn lone_rules_but(count: usize, number: usize, rule: Rule) -> Vec<Rule> {
    let mut rules = lone_rules(count);
    put(&mut rules, number, rule);
    rules
}

/// Puts a rule at a number of the set.
pub fn put(rules: &mut [Rule], number: usize, rule: Rule) {
    if let Some(place) = number.checked_sub(1).and_then(|at| rules.get_mut(at)) {
        *place = rule;
    }
}

/// So many subroutines, each called by the one before it; each comes back to
/// the rule behind its Gosub, and the last rule that runs is rule 2, Ignore.
pub fn nested_calls(calls: u8) -> Vec<Rule> {
    let home = |depth: u8| if depth == 0 { 0 } else { 2 * depth + 1 };
    let mut rules = Vec::new();
    for depth in 0..calls {
        let back = if depth == 0 { IGNORE } else { RETURN };
        let gosub = Rule::new(GOSUB, 2 * depth + 3);
        rules.push(gosub.inside(home(depth), depth));
        rules.push(Rule::new(back, 1).inside(home(depth), depth));
    }
    rules.push(Rule::new(RETURN, 1).inside(home(calls), calls));
    rules
}

/// So many pushes, untested but for the first, which is of Null; the others
/// have the attributes in turn, and the masks and values 2, 3, 4 ... The next
/// rule of a push declares what the push does, so between two of them stands
/// a rule that is not come to. The rule behind them all holds their items.
pub fn pushes(count: u8) -> Vec<Rule> {
    (0..count).flat_map(push_and_next).collect()
}

/// The push that comes with so many items, and its next rule.
fn push_and_next(held: u8) -> [Rule; 2] {
    let turn = usize::from(held) % VALUED.len();
    let attribute = if held == 0 { NULL } else { VALUED[turn] };
    let number = u32::from(held) + 1;
    let push = Rule::new(PUSH_RULE_TO_ACT, 2 * held + 3);
    [
        push.with_test(attribute, number, number).holding(held),
        Rule::new(NO_MATCH, 0).holding(held),
    ]
}

/// The set with further rules behind it.
pub fn followed_by(mut rules: Vec<Rule>, further: &[Rule]) -> Vec<Rule> {
    rules.extend_from_slice(further);
    rules
}

/// Five parts of the same length, the main part and four subroutines inside
/// one another. All rules of a part but its last call the next part, so the
/// rules come to are about that length to the fifth power.
pub fn calls_in_all_rules(length: u8) -> Vec<Rule> {
    let part = |depth: u8| (1..=length).map(move |turn| rule_of_part(length, depth, turn));
    (0..5).flat_map(part).collect()
}

/// A rule of such a part: a Gosub, in the innermost part a Goto to the next
/// rule; at the part's end a Return, in the main part Ignore.
fn rule_of_part(length: u8, depth: u8, turn: u8) -> Rule {
    let first = depth * length + 1;
    let rule = match (turn == length, depth) {
        (true, 0) => Rule::new(IGNORE, 0),
        (true, _) => Rule::new(RETURN, 1),
        (false, 4) => Rule::new(GOTO, first + turn),
        (false, _) => Rule::new(GOSUB, first + length),
    };
    rule.inside(if depth == 0 { 0 } else { first }, depth)
}
