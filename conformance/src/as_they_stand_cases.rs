//! Situations of the check, written by hand, about the octets of other rules:
//! they are read as they stand, right or wrong. A rule may therefore be named
//! with 37 or 39 because of a rule behind it that is at fault itself.

use crate::check_cases::{accepted, ignore, refused, CheckCase};
use crate::rule_sets::{lone_rules, put};
use crate::rules::*;

/// All of them.
pub fn as_they_stand_cases() -> Vec<CheckCase> {
    [
        gosubs_behind(),
        gosubs_before(),
        gosubs_to_other_places(),
        two_gosubs(),
        no_gosubs(),
        targets(),
        next_rules(),
        comebacks(),
        deepest_target(),
    ]
    .concat()
}

/// The number of the Return in the sets with Gosubs, and of the rule that is
/// the first of its subroutine.
const BACK: usize = 3;
const HOME: u8 = 6;

/// Eight rules: a Return with home 6 at 3, a subroutine at 6, and lone rules
/// but for those given.
fn with_return(parameter: u8, others: &[(usize, Rule)]) -> Vec<Rule> {
    let mut rules = lone_rules(8);
    put(
        &mut rules,
        BACK,
        Rule::new(RETURN, parameter).inside(HOME, 1),
    );
    put(&mut rules, 6, ignore().inside(HOME, 1));
    for &(number, rule) in others {
        put(&mut rules, number, rule);
    }
    rules
}

/// Wrong Gosubs to rule 6, each with the number that it gets for itself.
fn wrong_gosubs() -> Vec<(String, Rule, u32)> {
    let mut wrong = Vec::new();
    for opcode in [GOSUB, GOSUB_ACT] {
        let gosub = Rule::new(opcode, HOME);
        let (mut no_mark, mut half_mark, mut no_attribute) = (gosub, gosub, gosub);
        no_mark.mark = [0, 0];
        half_mark.mark = [MARK[0], MARK[1] ^ 1];
        no_attribute.attribute = 1;
        let all = [
            ("without mark", no_mark, 31),
            ("with half a mark", half_mark, 31),
            ("of no attribute", no_attribute, 32),
            ("with depth 5", gosub.inside(0, 5), 34),
            ("with depth 255", gosub.inside(0, 255), 34),
            ("with held 17", gosub.holding(17), 34),
            ("with held 255", gosub.holding(255), 34),
        ];
        let named = all.map(|(words, rule, own)| (format!("{opcode} {words}"), rule, own));
        wrong.extend(named);
    }
    wrong
}

/// What the rule has to declare to which a Return without items comes back
/// for this Gosub.
fn comeback(gosub: Rule) -> Rule {
    ignore().inside(gosub.home, gosub.depth)
}

/// The Gosub at 5, behind the Return: with 4 there is no rule 9; with 3 the
/// rule 8 has to declare what the Gosub does. Only where it does so, the
/// Gosub is named.
fn gosubs_behind() -> Vec<CheckCase> {
    let mut cases = Vec::new();
    for (words, gosub, own) in wrong_gosubs() {
        let with = |parameter, last| with_return(parameter, &[(5, gosub), (8, last)]);
        let right = comeback(gosub);
        let words = format!("Return before opcode {words}");
        cases.push(refused(&words, &with(4, right), 37, BACK));
        cases.push(refused(&words, &with(255, right), 37, BACK));
        cases.push(refused(&words, &with(3, right.holding(1)), 39, BACK));
        cases.push(refused(
            &words,
            &with(3, right.inside(HOME, gosub.depth)),
            39,
            BACK,
        ));
        cases.push(refused(
            &words,
            &with(3, right.inside(0, gosub.depth ^ 1)),
            39,
            BACK,
        ));
        cases.push(refused(&words, &with(3, right), own, 5));
    }
    cases
}

/// The Gosub at 2, before the Return. A wrong one is named itself. Of the
/// right one the Return is named: with 7 there is no rule 9; with 4 it comes
/// back into the subroutine.
fn gosubs_before() -> Vec<CheckCase> {
    let mut cases = Vec::new();
    for (words, gosub, own) in wrong_gosubs() {
        let words = format!("Return behind opcode {words}");
        for parameter in [4, 6, 7] {
            let rules = with_return(parameter, &[(2, gosub)]);
            cases.push(refused(&words, &rules, own, 2));
        }
    }
    for opcode in [GOSUB, GOSUB_ACT] {
        let with = |parameter| with_return(parameter, &[(2, Rule::new(opcode, HOME))]);
        let words = format!("Return behind a right opcode {opcode}");
        cases.push(refused(&words, &with(7), 37, BACK));
        cases.push(refused(&words, &with(4), 39, BACK));
        cases.push(accepted(&words, &with(6)));
    }
    cases
}

/// Gosubs that lead backward, to themselves or to no rule, each aimed at the
/// Return's home all the same: 37 of the Return, 39 of it, 37 of the Gosub.
fn gosubs_to_other_places() -> Vec<CheckCase> {
    let mut cases = Vec::new();
    for opcode in [GOSUB, GOSUB_ACT] {
        for home in [1, 2, 3, 4, 5, 9, 255] {
            let gosub = Rule::new(opcode, home);
            let with = |parameter, last: Rule| {
                let back = Rule::new(RETURN, parameter).inside(home, 1);
                with_return(1, &[(BACK, back), (5, gosub), (8, last)])
            };
            let words = format!("opcode {opcode} from 5 to {home}");
            cases.push(refused(&words, &with(4, ignore()), 37, BACK));
            cases.push(refused(&words, &with(3, ignore().holding(1)), 39, BACK));
            cases.push(refused(&words, &with(3, ignore()), 37, 5));
        }
    }
    cases
}

/// A right Gosub at 1 that the Return fits, and a wrong one at 5 that it does
/// not fit; then the other way round.
fn two_gosubs() -> Vec<CheckCase> {
    let right = Rule::new(GOSUB, HOME);
    let mut cases = Vec::new();
    for (words, wrong, own) in wrong_gosubs() {
        let with = |parameter, seventh, last| {
            let others = [(1, right), (5, wrong), (7, seventh), (8, last)];
            with_return(parameter, &others)
        };
        let fits = comeback(wrong);
        let words = format!("a right Gosub and opcode {words}");
        cases.push(refused(&words, &with(6, ignore(), ignore()), 37, BACK));
        cases.push(refused(
            &words,
            &with(3, ignore(), fits.holding(1)),
            39,
            BACK,
        ));
        cases.push(refused(&words, &with(3, ignore(), fits), own, 5));
        // Back to the Return itself for the right one.
        cases.push(refused(&words, &with(2, fits, ignore()), 39, BACK));
    }
    cases
}

/// Rules with the Return's home as parameter that are no Gosubs, and Gosubs
/// with another parameter: the Return passes, though it would come back to
/// no rule for a Gosub in that place.
fn no_gosubs() -> Vec<CheckCase> {
    let mut cases = Vec::new();
    for opcode in (0..=18).chain([134, 135, 255]) {
        let (held, after) = match opcode {
            PUSH_RULE_TO..=PUSH_PKT_TO_ACT => (0, 1),
            POP_TO | POP_TO_ACT => (1, 0),
            _ => (0, 0),
        };
        let rule = Rule::new(opcode, HOME).holding(held);
        let others = [(5, rule), (6, ignore().holding(after))];
        let words = format!("Return before opcode {opcode}");
        cases.push(match opcode {
            RETURN => refused(&words, &with_return(200, &others), 36, 5),
            GOSUB | GOSUB_ACT => refused(&words, &with_return(200, &others), 37, BACK),
            0 | ASSIGN | ASSIGN_ACT | 18.. => refused(&words, &with_return(200, &others), 33, 5),
            _ => accepted(&words, &with_return(200, &others)),
        });
    }
    let other_return = Rule::new(RETURN, HOME).inside(7, 1);
    cases.push(accepted(
        "Return before a Return with that parameter",
        &with_return(200, &[(5, other_return)]),
    ));
    let other_gosub = [(5, Rule::new(GOSUB, 7)), (7, ignore().inside(7, 1))];
    let words = "Return before a Gosub with another parameter";
    cases.push(accepted(words, &with_return(200, &other_gosub)));
    cases
}

/// Rules wrong by themselves that declare nothing, with their own numbers.
fn wrong_rules() -> Vec<(&'static str, Rule, u32)> {
    let (mut mark, mut attribute) = (ignore(), ignore());
    mark.mark = [0x52, 0x74];
    attribute.attribute = 7;
    vec![
        ("a wrong mark", mark, 31),
        ("a wrong attribute", attribute, 32),
        ("opcode 0", Rule::new(0, 0), 33),
        ("opcode 8", Rule::new(ASSIGN, 8), 33),
        ("opcode 255", Rule::new(255, 0), 33),
        ("a Return in the main part", Rule::new(RETURN, 1), 36),
        ("a goto backward", Rule::new(GOTO, 1), 37),
    ]
}

/// The wrong rule at 7, where it is as it has to be and otherwise in home,
/// depth and held; a depth of 5 and 17 items are otherwise too.
fn agreed_or_not(
    words: &str,
    named: usize,
    with: impl Fn(Rule) -> Vec<Rule>,
    right: impl Fn(Rule) -> Rule,
) -> Vec<CheckCase> {
    let mut cases = Vec::new();
    for (wrong_words, wrong, own) in wrong_rules() {
        let words = format!("{words}, {wrong_words}");
        let rule = right(wrong);
        let otherwise = [
            rule.inside(rule.home ^ 1, rule.depth),
            rule.inside(rule.home, rule.depth ^ 1),
            rule.holding(rule.held ^ 1),
            rule.inside(rule.home, 5),
            rule.holding(17),
        ];
        // Only in the main part a Return's home is wrong.
        if rule.home == 0 || own != 36 {
            cases.push(refused(&words, &with(rule), own, 7));
        }
        let otherwise = otherwise.map(|rule| refused(&words, &with(rule), 39, named));
        cases.extend(otherwise);
    }
    cases
}

/// The wrong rule as what each kind of goto at rule 2 leads to.
fn targets() -> Vec<CheckCase> {
    let from = |rule: Rule| {
        move |target: Rule| {
            let mut rules = lone_rules(8);
            put(&mut rules, 2, rule);
            put(&mut rules, 7, target);
            rules
        }
    };
    let to = |opcode| Rule::new(opcode, 7);
    let pop = to(POP_TO).holding(1);
    [
        agreed_or_not("Goto", 2, from(to(GOTO)), |rule| rule),
        agreed_or_not("Gosub", 2, from(to(GOSUB)), |rule| rule.inside(7, 1)),
        agreed_or_not("push", 2, from(to(PUSH_PKT_TO)), |rule| rule.holding(1)),
        agreed_or_not("PopTo", 2, from(pop), |rule| rule),
    ]
    .concat()
}

/// The wrong rule as the next one of rule 6.
fn next_rules() -> Vec<CheckCase> {
    let with = |next: Rule| {
        let mut rules = lone_rules(8);
        put(&mut rules, 6, ignore().with_test(0, 0, 1));
        put(&mut rules, 7, next);
        rules
    };
    agreed_or_not("next rule", 6, with, |rule| rule)
}

/// The wrong rule as what a Return at 4 comes back to.
fn comebacks() -> Vec<CheckCase> {
    let with = |comeback: Rule| {
        let mut rules = lone_rules(8);
        put(&mut rules, 2, Rule::new(GOSUB, 3));
        put(&mut rules, 3, ignore().inside(3, 1));
        put(&mut rules, 4, Rule::new(RETURN, 5).inside(3, 1));
        put(&mut rules, 7, comeback);
        rules
    };
    agreed_or_not("where Return comes back", 4, with, |rule| rule)
}

/// A Gosub with depth 4 agrees with a target that declares depth 5; then the
/// target is named.
fn deepest_target() -> Vec<CheckCase> {
    let with = |opcode, depth| {
        let mut rules = lone_rules(5);
        put(&mut rules, 2, Rule::new(opcode, 4).inside(9, 4));
        put(&mut rules, 4, ignore().inside(4, depth));
        rules
    };
    let of = |opcode| {
        [
            refused("Gosub from depth 4 to 5", &with(opcode, 5), 34, 4),
            refused("Gosub from depth 4 to 4", &with(opcode, 4), 39, 2),
        ]
    };
    [of(GOSUB), of(GOSUB_ACT)].concat()
}
