//! Situations of the check, written by hand: rule sets, and what the scope
//! and its readings state for them.

use crate::as_they_stand_cases::as_they_stand_cases;
use crate::attributes::*;
use crate::check_pairs::pair_cases;
use crate::field_cases::field_cases;
use crate::rule_sets::*;
use crate::rules::*;
use crate::successor_cases::successor_cases;

/// A situation of the check.
#[derive(Clone, Debug, PartialEq, Eq)]
pub struct CheckCase {
    /// What it is about.
    pub words: String,
    /// The octets of the rule set.
    pub set: Vec<u8>,
    /// The refusal's number and the rule it names; nothing if accepted.
    pub stated: Option<(u32, usize)>,
}

/// All situations.
pub fn check_cases() -> Vec<CheckCase> {
    [
        scope_cases(),
        lengths(),
        marks(),
        attribute_numbers(),
        opcodes(),
        too_much_declared(),
        first_rules(),
        returns_of_the_main_part(),
        gotos_to_no_rule(),
        returns_to_no_rule(),
        items(),
        successor_cases(),
        as_they_stand_cases(),
        which_is_named(),
        pair_cases(),
        field_cases(),
    ]
    .concat()
}

fn of_octets(words: &str, set: Vec<u8>, stated: Option<(u32, usize)>) -> CheckCase {
    CheckCase {
        words: words.into(),
        set,
        stated,
    }
}

/// The situation that these rules are accepted.
pub fn accepted(words: &str, rules: &[Rule]) -> CheckCase {
    of_octets(words, octets_of_rules(rules), None)
}

/// The situation that these rules are refused, with the number and the rule named.
pub fn refused(words: &str, rules: &[Rule], number: u32, rule: usize) -> CheckCase {
    of_octets(words, octets_of_rules(rules), Some((number, rule)))
}

/// The first, a middle and the last of five rules.
const PLACES: [usize; 3] = [1, 3, 5];

/// Five lone rules with this one at the first, a middle and the last place.
fn at_places(words: &str, rule: Rule, number: u32) -> Vec<CheckCase> {
    let at = |place| refused(words, &lone_rules_but(5, place, rule), number, place);
    PLACES.map(at).into()
}

/// Null & 0 = 0: Ignore.
pub fn ignore() -> Rule {
    Rule::new(IGNORE, 0)
}

/// Cases 12 to 16 of the scope.
fn scope_cases() -> Vec<CheckCase> {
    let called = |parameter| {
        let back = Rule::new(RETURN, parameter).inside(3, 1);
        [Rule::new(GOSUB, 3), ignore(), back]
    };
    let tested = Rule::new(COUNT, 0).with_test(SOURCE_INTERFACE, 0, 1);
    let null = Rule::new(COUNT, 0).with_test(NULL, 0, 1);
    vec![
        accepted("case 12", &[ignore()]),
        refused("case 13", &[Rule::new(GOTO, 1)], 37, 1),
        accepted("case 14, SourceInterface", &[tested]),
        accepted("case 14, Null", &[null]),
        accepted("case 15", &called(1)),
        refused("case 16", &called(3), 37, 3),
    ]
}

/// 30: lengths that are none of a set.
fn lengths() -> Vec<CheckCase> {
    let zeros = |length: usize| {
        let words = format!("{length} octets 00");
        of_octets(&words, vec![0; length], Some((30, 0)))
    };
    let of_rules = |length: usize| {
        let words = format!("{length} octets of right rules");
        let mut set = octets_of_rules(&lone_rules(257));
        set.truncate(length);
        let right = length > 0 && length.is_multiple_of(16) && length <= 4080;
        of_octets(&words, set, if right { None } else { Some((30, 0)) })
    };
    let wrong = [0, 1, 2, 8, 15, 17, 4079, 4081, 4095, 4096, 4112];
    let mut cases: Vec<CheckCase> = wrong.map(zeros).into();
    cases.extend((0..=33).map(of_rules));
    cases.extend((4063..=4097).map(of_rules));
    cases
}

/// 31: each octet of the mark.
fn marks() -> Vec<CheckCase> {
    let marks = [
        [0x52, 0x74],
        [0x53, 0x75],
        [0x75, 0x52],
        [0, 0],
        [0x52, 0],
        [0x72, 0x55],
    ];
    let wrong = |mark: [u8; 2]| at_places("mark", Rule { mark, ..ignore() }, 31);
    marks.into_iter().flat_map(wrong).collect()
}

/// 32: every attribute number, at a middle rule; some at each place.
fn attribute_numbers() -> Vec<CheckCase> {
    let with = |attribute| ignore().with_test(attribute, 0, 0);
    let right = [0, 4, 8, 9, 11, 12, 14, 18, 19, 21, 22];
    let each = |attribute: u8| {
        let rules = lone_rules_but(3, 2, with(attribute));
        match right.contains(&attribute) {
            true => accepted(&format!("attribute {attribute}"), &rules),
            false => refused(&format!("attribute {attribute}"), &rules, 32, 2),
        }
    };
    let mut cases: Vec<CheckCase> = (0..=u8::MAX).map(each).collect();
    for attribute in [1, 3, 10, 23, 50, 128, 255] {
        cases.extend(at_places("attribute", with(attribute), 32));
    }
    cases
}

/// 33: every opcode with parameter 3 at a middle rule; some at each place.
fn opcodes() -> Vec<CheckCase> {
    let each = |opcode: u8| {
        let rules = lone_rules_but(3, 2, Rule::new(opcode, 3));
        let words = format!("opcode {opcode}");
        let number = match opcode {
            1..=4 | 10 | 11 => return accepted(&words, &rules),
            5 => 36,
            6 | 7 | 12..=15 => 39,
            16 | 17 => 38,
            _ => 33,
        };
        refused(&words, &rules, number, 2)
    };
    let mut cases: Vec<CheckCase> = (0..=u8::MAX).map(each).collect();
    for opcode in [0, 8, 9, 18, 128, 255] {
        cases.extend(at_places("opcode", Rule::new(opcode, 4), 33));
    }
    cases
}

/// 34: depth and held over their limits, at each place.
fn too_much_declared() -> Vec<CheckCase> {
    let mut cases = Vec::new();
    for (depth, held) in [(5, 0), (255, 0), (0, 17), (0, 255), (5, 17)] {
        let rule = ignore().inside(2, depth).holding(held);
        cases.extend(at_places("depth or held over the limit", rule, 34));
    }
    let most = ignore().inside(2, 4).holding(16);
    for place in [3, 5] {
        let rules = lone_rules_but(5, place, most);
        cases.push(accepted("depth 4 and held 16", &rules));
    }
    cases
}

/// 35: home, depth or held of the first rule; those of others are free.
fn first_rules() -> Vec<CheckCase> {
    let mut cases = Vec::new();
    for (home, depth, held) in [(1, 0, 0), (0, 1, 0), (0, 0, 1), (255, 4, 16), (2, 0, 0)] {
        let rule = ignore().inside(home, depth).holding(held);
        cases.push(refused("first rule", &lone_rules_but(5, 1, rule), 35, 1));
        cases.push(refused("only rule", &[rule], 35, 1));
        for place in [2, 3, 5] {
            let rules = lone_rules_but(5, place, rule);
            cases.push(accepted("another rule", &rules));
        }
    }
    cases
}

/// 36: a Return with home 0, whatever its parameter and depth.
fn returns_of_the_main_part() -> Vec<CheckCase> {
    let mut cases = Vec::new();
    for parameter in [0, 1, 255] {
        let back = Rule::new(RETURN, parameter);
        cases.extend(at_places("Return in the main part", back, 36));
    }
    for place in [3, 5] {
        let rules = lone_rules_but(5, place, Rule::new(RETURN, 1).inside(0, 1));
        cases.push(refused("Return with depth 1 and home 0", &rules, 36, place));
    }
    cases
}

/// 37: every opcode with a goto flag and every kind of wrong parameter.
fn gotos_to_no_rule() -> Vec<CheckCase> {
    let mut cases = Vec::new();
    for opcode in [6, 7, 10, 11, 12, 13, 14, 15, 16, 17] {
        for place in PLACES {
            for parameter in [0, place - 1, place, 6, 255] {
                let goto = Rule::new(opcode, parameter as u8);
                let words = format!("opcode {opcode} to rule {parameter}");
                cases.push(refused(&words, &lone_rules_but(5, place, goto), 37, place));
            }
        }
    }
    cases
}

/// 37: Returns with parameter 0 or that come back behind the last rule.
fn returns_to_no_rule() -> Vec<CheckCase> {
    let mut cases = Vec::new();
    for place in [3, 5] {
        let lone = Rule::new(RETURN, 0).inside(place as u8, 1);
        let rules = lone_rules_but(5, place, lone);
        cases.push(refused("Return 0 without a Gosub", &rules, 37, place));
        for opcode in [GOSUB, GOSUB_ACT] {
            for parameter in [0, 5, 6, 251, 255] {
                let mut rules = lone_rules_but(5, 1, Rule::new(opcode, place as u8));
                let back = Rule::new(RETURN, parameter).inside(place as u8, 1);
                put(&mut rules, place, back);
                let words = format!("opcode {opcode}, Return {parameter}");
                cases.push(refused(&words, &rules, 37, place));
            }
            let mut rules = lone_rules_but(5, 1, Rule::new(opcode, place as u8));
            put(
                &mut rules,
                place,
                Rule::new(RETURN, 3).inside(place as u8, 1),
            );
            cases.push(accepted("the Return comes back to rule 4", &rules));
        }
    }
    cases.push(longest_return());
    cases
}

/// Gosub number and parameter that do not fit an octet together.
fn longest_return() -> CheckCase {
    let mut rules = lone_rules_but(255, 200, Rule::new(GOSUB, 255));
    put(&mut rules, 255, Rule::new(RETURN, 57).inside(255, 1));
    refused("200 and 57 are 257", &rules, 37, 255)
}

/// 38: PopTo without an item; pushes and counts with 16.
fn items() -> Vec<CheckCase> {
    let mut cases = Vec::new();
    for opcode in [POP_TO, POP_TO_ACT] {
        for place in [1, 3, 4] {
            let rules = lone_rules_but(5, place, Rule::new(opcode, 5));
            cases.push(refused("PopTo with held 0", &rules, 38, place));
        }
        cases.push(pop_of(opcode, 1));
        cases.push(pop_of(opcode, 16));
    }
    for opcode in [12, 13, 14, 15] {
        let rules = lone_rules_but(5, 3, Rule::new(opcode, 5).holding(16));
        cases.push(refused("a push with held 16", &rules, 38, 3));
        let mut rules = lone_rules_but(5, 3, Rule::new(opcode, 5).holding(15));
        put(&mut rules, 5, ignore().holding(16));
        cases.push(accepted("a push with held 15", &rules));
    }
    for place in [3, 5] {
        cases.extend(counts_at(place));
    }
    cases.extend(full_queues());
    cases
}

/// PopTo at a middle rule with so many items.
fn pop_of(opcode: u8, held: u8) -> CheckCase {
    let mut rules = lone_rules_but(5, 3, Rule::new(opcode, 5).holding(held));
    put(&mut rules, 5, ignore().holding(held - 1));
    accepted("PopTo with an item", &rules)
}

/// Counts with 15 and 16 items; the other opcodes that end with 16.
fn counts_at(place: usize) -> Vec<CheckCase> {
    let with = |opcode, held| lone_rules_but(5, place, Rule::new(opcode, 0).holding(held));
    vec![
        refused("Count with held 16", &with(COUNT, 16), 38, place),
        refused("CountPkt with held 16", &with(COUNT_PKT, 16), 38, place),
        accepted("Count with held 15", &with(COUNT, 15)),
        accepted("CountPkt with held 15", &with(COUNT_PKT, 15)),
        accepted("Ignore with held 16", &with(IGNORE, 16)),
        accepted("NoMatch with held 16", &with(NO_MATCH, 16)),
    ]
}

/// 16 pushes, then an action of a full queue.
fn full_queues() -> Vec<CheckCase> {
    let then = |rules: &[Rule]| followed_by(pushes(16), rules);
    let full = |opcode, parameter| Rule::new(opcode, parameter).holding(16);
    let behind = Rule::new(COUNT, 0).holding(15);
    let in_call = Rule::new(IGNORE, 0).inside(34, 1).holding(16);
    vec![
        accepted("16 pushes", &then(&[full(NO_MATCH, 0)])),
        accepted("16 pushes, PopTo", &then(&[full(POP_TO, 34), behind])),
        accepted("16 pushes, Gosub", &then(&[full(GOSUB, 34), in_call])),
        refused("16 pushes, Count", &then(&[full(COUNT, 0)]), 38, 33),
        refused("16 pushes, CountPkt", &then(&[full(COUNT_PKT, 0)]), 38, 33),
        refused("17 pushes", &then(&[full(12, 34), behind]), 38, 33),
        refused(
            "17 pushes",
            &then(&[full(12, 34), behind.holding(17)]),
            38,
            33,
        ),
    ]
}

/// The lowest rule, and its lowest number.
fn which_is_named() -> Vec<CheckCase> {
    let all_wrong = Rule {
        mark: [1, 2],
        attribute: 1,
        opcode: 0,
        mask: 1,
        value: 1,
        parameter: 0,
        home: 9,
        depth: 5,
        held: 17,
    };
    let mut rule = all_wrong;
    let mut cases = vec![refused("all wrong", &[rule, ignore()], 31, 1)];
    rule.mark = MARK;
    cases.push(refused("all but the mark", &[rule, ignore()], 32, 1));
    rule.attribute = 4;
    cases.push(refused("opcode, and more", &[rule, ignore()], 33, 1));
    rule.opcode = GOTO;
    cases.push(refused("depth, and more", &[rule, ignore()], 34, 1));
    rule.depth = 4;
    cases.push(refused("held, and more", &[rule, ignore()], 34, 1));
    rule.held = 0;
    cases.push(refused("home, and more", &[rule, ignore()], 35, 1));
    rule = rule.inside(0, 0);
    cases.push(refused("parameter, and more", &[rule, ignore()], 37, 1));
    rule.opcode = POP_TO;
    cases.push(refused("parameter before item", &[rule, ignore()], 37, 1));
    rule.parameter = 2;
    cases.push(refused("item before successor", &[rule, ignore()], 38, 1));
    cases.extend(earlier_rules(all_wrong));
    cases
}

/// An earlier rule's high number before a later rule's low one.
fn earlier_rules(all_wrong: Rule) -> Vec<CheckCase> {
    let goto = Rule::new(GOTO, 3);
    let back = Rule::new(RETURN, 0);
    vec![
        refused("39 before a later 31", &[goto, ignore(), all_wrong], 39, 1),
        refused("36 before 37", &[ignore(), back, all_wrong], 36, 2),
        refused("31 of the last", &[ignore(), ignore(), all_wrong], 31, 3),
        refused("a Goto to a rule without mark", &with_wrong_mark(), 31, 3),
    ]
}

/// The target has no mark but declares as it ought to.
fn with_wrong_mark() -> [Rule; 3] {
    let wrong = Rule {
        mark: [0x52, 0x76],
        ..ignore()
    };
    [Rule::new(GOTO, 3), ignore(), wrong]
}
