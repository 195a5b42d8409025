//! Situations of the check about what successors declare, written by hand.

use crate::attributes::*;
use crate::check_cases::{accepted, ignore, refused, CheckCase};
use crate::rule_sets::*;
use crate::rules::*;

/// All of them.
pub fn successor_cases() -> Vec<CheckCase> {
    [
        gotos_declared_otherwise(),
        next_rules_declared_otherwise(),
        returns_declared_otherwise(),
        several_gosubs(),
        octets_as_they_stand(),
        deep_calls(),
        rules_nobody_reaches(),
    ]
    .concat()
}

/// Accepted, or else refused with 39 at this rule.
fn accepted_if(right: bool, words: &str, rules: &[Rule], rule: usize) -> CheckCase {
    match right {
        true => accepted(words, rules),
        false => refused(words, rules, 39, rule),
    }
}

/// Rules around what a target ought to declare: first the right one.
fn variants(home: u8, depth: u8, held: u8) -> [Rule; 6] {
    let right = ignore().inside(home, depth).holding(held);
    [
        right,
        right.inside(home ^ 1, depth),
        right.inside(home, depth + 1),
        right.holding(held + 1),
        right.inside(home, depth ^ 1),
        right.holding(held ^ 1),
    ]
}

/// 39: targets of gotos, from the first and from a middle rule.
fn gotos_declared_otherwise() -> Vec<CheckCase> {
    let mut cases = Vec::new();
    for opcode in [6, 7, 10, 11, 12, 13, 14, 15, 16, 17] {
        for (place, held) in [(1, 0), (3, 0), (3, 1), (3, 15)] {
            let pops = opcode == POP_TO || opcode == POP_TO_ACT;
            if !(pops && held == 0) {
                cases.extend(gotos_from(place, held, opcode));
            }
        }
    }
    cases
}

/// A goto with so many items from this rule to rule 5 of 6.
fn gotos_from(place: usize, held: u8, opcode: u8) -> Vec<CheckCase> {
    let (home, depth, after) = match opcode {
        GOSUB | GOSUB_ACT => (5, 1, held),
        GOTO | GOTO_ACT => (0, 0, held),
        POP_TO | POP_TO_ACT => (0, 0, held - 1),
        _ => (0, 0, held + 1),
    };
    let with = |target: Rule| {
        let goto = Rule::new(opcode, 5).holding(held);
        let mut rules = lone_rules_but(6, place, goto);
        put(&mut rules, 5, target);
        rules
    };
    let words = format!("opcode {opcode} with held {held}");
    let [right, wrong @ ..] = variants(home, depth, after).map(with);
    let mut cases = vec![accepted(&words, &right)];
    cases.extend(wrong.map(|rules| refused(&words, &rules, 39, place)));
    cases
}

/// 39: the next rule, for every opcode, and what takes it away.
fn next_rules_declared_otherwise() -> Vec<CheckCase> {
    let mut cases = Vec::new();
    for opcode in [1, 2, 3, 4] {
        for attribute in [NULL, DEST_INTERFACE] {
            cases.extend(next_rules(Rule::new(opcode, 0), attribute));
        }
    }
    for opcode in [10, 11] {
        cases.extend(next_rules(Rule::new(opcode, 5), SOURCE_PEER_TYPE));
    }
    cases.extend(next_of_others());
    let last = ignore().with_test(SOURCE_INTERFACE, 1, 1);
    cases.push(accepted("no next rule", &lone_rules_but(5, 5, last)));
    cases
}

/// The rule first, in the middle and last but one, with masks and values 0
/// or not, before next rules of all kinds.
fn next_rules(rule: Rule, attribute: u8) -> Vec<CheckCase> {
    let mut cases = Vec::new();
    for (mask, value) in [(0, 0), (1, 0), (0, 1), (u32::MAX, 1 << 31)] {
        let tested = rule.with_test(attribute, mask, value);
        for place in [1, 3] {
            for (turn, next) in variants(0, 0, 0).into_iter().enumerate() {
                let mut rules = lone_rules_but(6, place, tested);
                put(&mut rules, place + 1, next);
                let fits = turn == 0 || (mask, value) == (0, 0);
                let words = format!("next of opcode {} & {mask} = {value}", rule.opcode);
                cases.push(accepted_if(fits, &words, &rules, place));
            }
        }
    }
    cases
}

/// Next rules of Gosub, push, PopTo and Return.
fn next_of_others() -> Vec<CheckCase> {
    let mut cases = Vec::new();
    let in_call = ignore().inside(5, 1).holding(2);
    let all = [
        (Rule::new(GOSUB, 5), in_call),
        (Rule::new(GOSUB_ACT, 5), in_call),
        (Rule::new(PUSH_RULE_TO, 5), ignore().holding(3)),
        (Rule::new(PUSH_PKT_TO_ACT, 5), ignore().holding(3)),
        (Rule::new(POP_TO, 5), ignore().holding(1)),
        (Rule::new(POP_TO_ACT, 5), ignore().holding(1)),
    ];
    for (rule, target) in all {
        let tested = rule.with_test(NULL, 0, 1).holding(2);
        for (held, fits) in [(2, true), (1, false), (3, false)] {
            let mut rules = lone_rules_but(5, 3, tested);
            put(&mut rules, 4, ignore().holding(held));
            put(&mut rules, 5, target);
            let words = format!("next of opcode {} with held 2", rule.opcode);
            cases.push(accepted_if(fits, &words, &rules, 3));
        }
    }
    cases.extend(next_of_returns());
    cases
}

fn next_of_returns() -> Vec<CheckCase> {
    let back = Rule::new(RETURN, 1).inside(3, 1).with_test(NULL, 1, 0);
    let next = |rule: Rule| [Rule::new(GOSUB, 3), ignore(), back, rule];
    vec![
        accepted("next of Return", &next(ignore().inside(3, 1))),
        refused("next of Return", &next(ignore()), 39, 3),
        refused("next of Return", &next(ignore().inside(4, 1)), 39, 3),
        refused("next of Return", &next(ignore().inside(3, 2)), 39, 3),
    ]
}

/// 39: where a Return comes back; the Return is in the middle and last.
fn returns_declared_otherwise() -> Vec<CheckCase> {
    let mut cases = Vec::new();
    for opcode in [GOSUB, GOSUB_ACT] {
        for behind in [0, 2] {
            for held in [0, 2] {
                let comebacks = variants(0, 0, held);
                for (turn, comeback) in comebacks.into_iter().enumerate() {
                    let rules = one_call(opcode, held, comeback, behind);
                    let words = format!("Return with held {held}");
                    cases.push(accepted_if(turn == 0, &words, &rules, rules.len() - behind));
                }
            }
        }
    }
    cases
}

/// A call of a subroutine with so many pushes and a Return 2, which comes
/// back to rule 3, then so many lone rules.
fn one_call(opcode: u8, held: u8, comeback: Rule, behind: usize) -> Vec<Rule> {
    let mut rules = vec![Rule::new(opcode, 4), ignore(), comeback];
    for before in 0..held {
        let push = Rule::new(PUSH_PKT_TO, 5 + before);
        rules.push(push.inside(4, 1).holding(before));
    }
    rules.push(Rule::new(RETURN, 2).inside(4, 1).holding(held));
    rules.extend(lone_rules(behind));
    rules
}

/// Three rules aimed at subroutine 8 of 9, whose only rule is a Return, and
/// the rules behind them.
fn three_calls(parameter: u8, comebacks: [Rule; 3]) -> Vec<Rule> {
    let [a, b, c] = comebacks;
    let gosub = |opcode| Rule::new(opcode, 8);
    let back = Rule::new(RETURN, parameter).inside(8, 1);
    let (first, other) = (gosub(GOSUB), gosub(GOSUB_ACT));
    vec![first, a, other, b, first, c, ignore(), back, ignore()]
}

/// A Return has to fit every Gosub aimed at its home.
pub fn several_gosubs() -> Vec<CheckCase> {
    let nearest = nearest_fits();
    let cases = vec![
        refused("the first breaks 39, a later one 37", &two_faults(), 37, 4),
        refused("the same, nearer to each other", &two_near_faults(), 37, 5),
        refused("the nearest fits, the other does not", &nearest, 39, 6),
        accepted("Gosubs of two subroutines", &two_homes(6)),
        refused("one comes back into the other", &two_homes(4), 39, 8),
    ];
    [three_gosubs(), cases].concat()
}

/// Each of three Gosubs wrong; then one that finds no rule.
fn three_gosubs() -> Vec<CheckCase> {
    let (right, wrong) = (ignore(), ignore().holding(1));
    let first = three_calls(1, [wrong, right, right]);
    let second = three_calls(1, [right, wrong, right]);
    let third = three_calls(1, [right, right, wrong]);
    let of = |parameter| three_calls(parameter, [right; 3]);
    vec![
        accepted("three Gosubs", &of(1)),
        refused("the first of three wrong", &first, 39, 8),
        refused("the second of three wrong", &second, 39, 8),
        refused("the third of three wrong", &third, 39, 8),
        accepted("all three come back behind", &of(4)),
        refused("the second wrong, the third finds no rule", &of(5), 37, 8),
        refused("the third finds no rule", &of(6), 37, 8),
    ]
}

/// The Return comes back to itself for rule 1 and to no rule for rule 3.
fn two_faults() -> [Rule; 4] {
    let gosub = Rule::new(GOSUB, 4);
    let back = Rule::new(RETURN, 3).inside(4, 1);
    [gosub, ignore(), gosub, back]
}

/// The same for rules 1 and 2.
fn two_near_faults() -> [Rule; 5] {
    let gosub = Rule::new(GOSUB, 5);
    let back = Rule::new(RETURN, 4).inside(5, 1);
    [gosub, gosub, ignore(), ignore(), back]
}

/// The Return fits the Gosub that is nearest to it, but not the other one.
fn nearest_fits() -> Vec<Rule> {
    vec![
        Rule::new(GOSUB, 6),
        ignore().holding(1),
        Rule::new(GOSUB, 6),
        ignore(),
        ignore(),
        Rule::new(RETURN, 1).inside(6, 1),
    ]
}

/// Two subroutines, at 4 and at 6, that both call the one at 8; it comes back
/// to the rule behind its Gosub, which for the second declares this home.
fn two_homes(home: u8) -> Vec<Rule> {
    vec![
        Rule::new(GOSUB, 4),
        Rule::new(GOSUB, 6),
        ignore(),
        Rule::new(GOSUB, 8).inside(4, 1),
        Rule::new(RETURN, 1).inside(4, 1),
        Rule::new(GOSUB_ACT, 8).inside(6, 1),
        ignore().inside(home, 1),
        Rule::new(RETURN, 1).inside(8, 2),
    ]
}

/// A Gosub, its subroutine, and a fourth rule aimed at it too.
fn with_fourth(fourth: Rule) -> Vec<Rule> {
    let back = Rule::new(RETURN, 1).inside(3, 1);
    vec![Rule::new(GOSUB, 3), ignore(), back, fourth]
}

/// Other rules' octets count for a Return as they stand.
fn octets_as_they_stand() -> Vec<CheckCase> {
    let again = Rule::new(GOSUB, 3);
    let (mut no_mark, mut no_attribute) = (again, again);
    no_mark.mark = [0, 0];
    no_attribute.attribute = 1;
    let alone = |words: &str, fourth: Rule, number, rule| {
        refused(words, &with_fourth(fourth), number, rule)
    };
    let then = |words: &str, fourth: Rule, fifth: Rule, number, rule| {
        let rules = followed_by(with_fourth(fourth), &[fifth]);
        refused(words, &rules, number, rule)
    };
    let (right, held, inner) = (ignore(), ignore().holding(1), ignore().inside(3, 1));
    vec![
        alone("a Gosub behind its subroutine", again, 37, 3),
        alone("a Gosub with a wrong mark", no_mark, 37, 3),
        alone("a Gosub with a wrong attribute", no_attribute, 37, 3),
        alone("a Gosub aimed elsewhere", Rule::new(GOSUB, 4), 37, 4),
        alone("Assign is no Gosub", Rule::new(ASSIGN, 3), 33, 4),
        then("backward, right for the Return", again, right, 37, 4),
        then("no mark, right for the Return", no_mark, right, 31, 4),
        then("backward, wrong for the Return", again, held, 39, 3),
        then("no mark, wrong for the Return", no_mark, inner, 39, 3),
    ]
}

/// Calls inside one another to the limit and beyond it.
fn deep_calls() -> Vec<CheckCase> {
    let mut cases: Vec<CheckCase> = (1..=4)
        .map(|calls| accepted(&format!("{calls} calls"), &nested_calls(calls)))
        .collect();
    let five = nested_calls(5);
    cases.push(refused("5 calls, depth 5 declared", &five, 34, 11));
    let mut hidden = five;
    put(&mut hidden, 11, Rule::new(RETURN, 1).inside(11, 4));
    cases.push(refused("5 calls, depth 4 declared", &hidden, 39, 9));
    cases.push(accepted("calls in all rules", &calls_in_all_rules(6)));
    cases.push(accepted("255 rules with calls", &calls_in_all_rules(51)));
    cases
}

/// Rules that no run reaches.
fn rules_nobody_reaches() -> Vec<CheckCase> {
    let unreached = |rule: Rule| lone_rules_but(5, 3, rule);
    let lone_return = |parameter| Rule::new(RETURN, parameter).inside(3, 1);
    let strange = ignore().inside(9, 0).with_test(NULL, 1, 1);
    let mut agreed = unreached(strange);
    put(&mut agreed, 4, ignore().inside(9, 0));
    vec![
        accepted("home 9 with depth 0", &unreached(ignore().inside(9, 0))),
        accepted("the same, next rule agreed", &agreed),
        refused("the same, next rule not", &unreached(strange), 39, 3),
        accepted("Return 1 without Gosub", &unreached(lone_return(1))),
        accepted("Return 255 without Gosub", &unreached(lone_return(255))),
        refused("Return 0 without Gosub", &unreached(lone_return(0)), 37, 3),
        accepted(
            "Return with a home that is no rule",
            &unreached(Rule::new(RETURN, 9).inside(200, 0)),
        ),
    ]
}
