//! Situations of the check, written by hand: every value of a field, in sets
//! of a few rules. Attributes and opcodes have theirs among the others.

use crate::check_cases::{accepted, ignore, refused, CheckCase};
use crate::rules::*;

/// All of them.
pub fn field_cases() -> Vec<CheckCase> {
    [
        marks(),
        first_rules(),
        depths_and_items(),
        homes_of_returns(),
        targets(),
        comebacks(),
        queues(),
    ]
    .concat()
}

/// The rules with this refusal of one of them, or accepted.
fn stated(words: &str, rules: &[Rule], refusal: Option<(u32, usize)>) -> CheckCase {
    match refusal {
        Some((number, rule)) => refused(words, rules, number, rule),
        None => accepted(words, rules),
    }
}

/// 31: every other value of each octet of the mark.
fn marks() -> Vec<CheckCase> {
    let mut cases = Vec::new();
    for place in [0, 1] {
        for change in 1..=u8::MAX {
            let mut rule = ignore();
            rule.mark[place] ^= change;
            let words = format!("mark {:02x?}", rule.mark);
            cases.push(refused(&words, &[rule], 31, 1));
        }
    }
    cases
}

/// 35: every home, depth and number of items of rule 1 that is not 0 and not
/// refused for itself.
fn first_rules() -> Vec<CheckCase> {
    let homes = (1..=u8::MAX).map(|home| ignore().inside(home, 0));
    let depths = (1..=4).map(|depth| ignore().inside(0, depth));
    let held = (1..=16).map(|held| ignore().holding(held));
    let all = homes.chain(depths).chain(held);
    all.map(|rule| refused("a first rule that declares", &[rule], 35, 1))
        .collect()
}

/// 34: every depth and every number of items of rule 2.
fn depths_and_items() -> Vec<CheckCase> {
    let mut cases = Vec::new();
    for number in 0..=u8::MAX {
        let deep = [ignore(), ignore().inside(0, number)];
        let full = [ignore(), ignore().holding(number)];
        let too_deep = (number > 4).then_some((34, 2));
        let too_full = (number > 16).then_some((34, 2));
        cases.push(stated(&format!("depth {number}"), &deep, too_deep));
        cases.push(stated(&format!("held {number}"), &full, too_full));
    }
    cases
}

/// 36: every home of a Return, and home 0 with every depth and number of
/// items that a rule may declare.
fn homes_of_returns() -> Vec<CheckCase> {
    let mut cases = Vec::new();
    let back = Rule::new(RETURN, 1);
    for home in 0..=u8::MAX {
        let rules = [ignore(), back.inside(home, 1)];
        let refusal = (home == 0).then_some((36, 2));
        cases.push(stated(&format!("Return with home {home}"), &rules, refusal));
    }
    for depth in 0..=4 {
        for held in 0..=16 {
            let rules = [ignore(), back.inside(0, depth).holding(held)];
            let words = format!("Return with depth {depth} and held {held}");
            cases.push(refused(&words, &rules, 36, 2));
        }
    }
    cases
}

/// 37: every parameter of Goto, GosubAct and a Return without Gosub at rule 2
/// of 4. The Gosub finds the rules 3 and 4 declared otherwise.
fn targets() -> Vec<CheckCase> {
    let mut cases = Vec::new();
    for parameter in 0..=u8::MAX {
        let with = |rule: Rule| [ignore(), rule, ignore(), ignore()];
        let leads = parameter == 3 || parameter == 4;
        let goto = (!leads).then_some((37, 2));
        let gosub = if leads { (39, 2) } else { (37, 2) };
        let back = (parameter == 0).then_some((37, 2));
        let words = format!("parameter {parameter}");
        let rule = |opcode| Rule::new(opcode, parameter);
        cases.push(stated(&words, &with(rule(GOTO)), goto));
        cases.push(stated(&words, &with(rule(GOSUB_ACT)), Some(gosub)));
        cases.push(stated(&words, &with(rule(RETURN).inside(9, 1)), back));
    }
    cases
}

/// Every parameter of a Return at rule 3 of 4, whose Gosub is rule 1. Rule 3
/// itself has another home than the Gosub.
fn comebacks() -> Vec<CheckCase> {
    let mut cases = Vec::new();
    for parameter in 0..=u8::MAX {
        let back = Rule::new(RETURN, parameter).inside(3, 1);
        let rules = [Rule::new(GOSUB, 3), ignore(), back, ignore()];
        let refusal = match parameter {
            1 | 3 => None,
            2 => Some((39, 3)),
            _ => Some((37, 3)),
        };
        cases.push(stated(&format!("Return {parameter}"), &rules, refusal));
    }
    cases
}

/// 38: every number of items of PopTo, of a push and of Count, at rule 2 of 3.
/// What PopTo and the push lead to declares as it has to, as far as it can.
fn queues() -> Vec<CheckCase> {
    let mut cases = Vec::new();
    for held in 0..=u8::MAX {
        let with = |opcode, after: u8| {
            let rule = Rule::new(opcode, 3).holding(held);
            [ignore(), rule, ignore().holding(after)]
        };
        let too_full = (held > 16).then_some((34, 2));
        let no_item = (held == 0).then_some((38, 2));
        let no_room = (held == 16).then_some((38, 2));
        let (less, more) = (held.saturating_sub(1), held.saturating_add(1));
        let words = format!("{held} items");
        cases.push(stated(&words, &with(POP_TO, less), too_full.or(no_item)));
        cases.push(stated(
            &words,
            &with(PUSH_RULE_TO, more),
            too_full.or(no_room),
        ));
        cases.push(stated(&words, &with(COUNT, 0), too_full.or(no_room)));
    }
    cases
}
