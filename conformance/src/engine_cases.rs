//! Situations of the engine, written by hand: rule sets and samples, and the
//! answers that the scope and its readings state for them.

use crate::attribute_cases::{attribute_cases, long_sample};
use crate::attributes::*;
use crate::check_cases::{check_cases, CheckCase};
use crate::packets::*;
use crate::rule_sets::*;
use crate::rules::*;
use crate::successor_cases::several_gosubs;

/// A situation of the engine.
#[derive(Clone, Debug, PartialEq, Eq)]
pub struct EngineCase {
    /// What it is about.
    pub words: String,
    /// The octets of the rule set.
    pub set: Vec<u8>,
    /// The octets that should be a flow sample.
    pub sample: Vec<u8>,
    /// What the papers state for them.
    pub stated: Stated,
}

/// What the papers state for a situation.
#[derive(Clone, Debug, PartialEq, Eq)]
pub enum Stated {
    /// A refusal with this number, naming this rule.
    Refused(u32, usize),
    /// The answer's number, the rules come to, and the entries of the key
    /// that are not zero: attribute, mask and value.
    Answered(u32, u64, Vec<(u8, u32, u32)>),
}

/// The answers' numbers.
const IGNORED: u32 = 1;
const NOT_MATCHED: u32 = 2;
const COUNTED: u32 = 3;
const COUNTED_PKT: u32 = 4;

const ALL: u32 = u32::MAX;

/// All situations.
pub fn engine_cases() -> Vec<EngineCase> {
    [
        scope_cases(),
        failed_tests(),
        tests_of_null(),
        act_opcodes(),
        returns(),
        calls(),
        queues(),
        keys(),
        untested_counts(),
        untested_actions(),
        masks(),
        items_across_calls(),
        packet_values(),
        refused_sets(),
        refused_samples(),
    ]
    .concat()
}

/// The rules over the sample with a TCP packet, and what is stated for them.
fn answered(words: &str, rules: &[Rule], answer: u32, count: u64) -> EngineCase {
    keyed(words, rules, answer, count, &[])
}

/// The same with entries of the key that are not zero.
fn keyed(
    words: &str,
    rules: &[Rule],
    answer: u32,
    count: u64,
    key: &[(u8, u32, u32)],
) -> EngineCase {
    EngineCase {
        words: words.into(),
        set: octets_of_rules(rules),
        sample: tcp_sample(),
        stated: Stated::Answered(answer, count, key.to_vec()),
    }
}

fn ignore() -> Rule {
    Rule::new(IGNORE, 0)
}

/// The rule with a test that fails for the sample.
fn failing(rule: Rule) -> Rule {
    rule.with_test(SOURCE_INTERFACE, ALL, 0)
}

/// Cases 12 to 16 of the scope.
fn scope_cases() -> Vec<EngineCase> {
    let count = |attribute| Rule::new(COUNT, 0).with_test(attribute, 0, 1);
    let called = |parameter| {
        let back = Rule::new(RETURN, parameter).inside(3, 1);
        [Rule::new(GOSUB, 3), ignore(), back]
    };
    let refused = |case: EngineCase, rule| EngineCase {
        stated: Stated::Refused(37, rule),
        ..case
    };
    vec![
        answered("case 12", &[ignore()], IGNORED, 1),
        refused(answered("case 13", &[Rule::new(GOTO, 1)], 0, 0), 1),
        answered("case 14", &[count(SOURCE_INTERFACE)], NOT_MATCHED, 1),
        answered("case 14, Null", &[count(NULL)], COUNTED, 1),
        answered("case 15", &called(1), IGNORED, 3),
        refused(answered("case 16", &called(3), 0, 0), 3),
    ]
}

/// Failed tests go to the next rule, and behind the last it is NoMatch.
fn failed_tests() -> Vec<EngineCase> {
    let fail = failing(ignore());
    let pass = Rule::new(NO_MATCH, 0).with_test(SOURCE_INTERFACE, ALL, INPUT);
    let in_call = failing(Rule::new(RETURN, 1)).inside(3, 1);
    let call = |last: Rule| [Rule::new(GOSUB, 3), ignore(), in_call, last];
    vec![
        answered("one fails", &[fail], NOT_MATCHED, 1),
        answered("three fail", &[fail; 3], NOT_MATCHED, 3),
        answered("255 fail", &[fail; 255], NOT_MATCHED, 255),
        answered("the third passes", &[fail, fail, ignore()], IGNORED, 3),
        answered("the first passes", &[pass, ignore()], NOT_MATCHED, 1),
        answered(
            "a failed Return, then Ignore",
            &call(ignore().inside(3, 1)),
            IGNORED,
            3,
        ),
        answered("a subroutine's last fails", &call(in_call), NOT_MATCHED, 3),
    ]
}

/// A test of Null succeeds with any mask and value.
fn tests_of_null() -> Vec<EngineCase> {
    let pairs = [(0, 0), (0, 1), (1, 0), (ALL, ALL), (ALL, 5), (0, ALL)];
    let tested = |(mask, value): (u32, u32)| {
        let first = Rule::new(GOTO, 3).with_test(NULL, mask, value);
        let last = Rule::new(COUNT_PKT, 0).with_test(NULL, mask, value);
        let words = format!("Null & {mask} = {value}");
        answered(&words, &[first, ignore(), last], COUNTED_PKT, 2)
    };
    pairs.map(tested).into()
}

/// Every opcode with a goto flag before a rule whose test would fail: only
/// the Act opcodes run it.
fn act_opcodes() -> Vec<EngineCase> {
    let gotos = [6, 7, 10, 11, 12, 13, 14, 15, 16, 17];
    gotos.map(before_a_failing_test).into()
}

fn before_a_failing_test(opcode: u8) -> EngineCase {
    let place = |rule: Rule| match opcode {
        GOSUB | GOSUB_ACT => rule.inside(3, 1),
        POP_TO | POP_TO_ACT | GOTO | GOTO_ACT => rule,
        _ => rule.holding(1),
    };
    let pops = opcode == POP_TO || opcode == POP_TO_ACT;
    let first = Rule::new(if pops { PUSH_RULE_TO } else { GOTO }, 2);
    let second = Rule::new(opcode, 3).holding(u8::from(pops));
    let third = place(failing(Rule::new(COUNT, 0)));
    let rules = [first, second, third, place(ignore())];
    let words = format!("opcode {opcode} before a test that fails");
    match opcode % 2 {
        0 => answered(&words, &rules, IGNORED, 4),
        _ => keyed(&words, &rules, COUNTED, 3, &[(SOURCE_INTERFACE, ALL, 0)]),
    }
}

/// The rule that a Return comes back to is not tested; those behind it are.
fn returns() -> Vec<EngineCase> {
    let back = |home, parameter| Rule::new(RETURN, parameter).inside(home, 1);
    let count = failing(Rule::new(COUNT, 0));
    let untested = [Rule::new(GOSUB, 4), count, ignore(), back(4, 1)];
    let second = [Rule::new(GOSUB, 4), count, ignore(), back(4, 2)];
    let tested_again = [
        Rule::new(GOSUB, 5),
        failing(Rule::new(GOTO, 3)),
        count,
        ignore(),
        back(5, 1),
    ];
    let key = [(SOURCE_INTERFACE, ALL, 0)];
    vec![
        keyed("Return 1 to a test that fails", &untested, COUNTED, 3, &key),
        answered("Return 2 past it", &second, IGNORED, 3),
        answered("tested again behind it", &tested_again, IGNORED, 5),
        keyed(
            "called twice",
            &called_twice(),
            COUNTED,
            6,
            &[(DEST_PEER_TYPE, 3, 9)],
        ),
        answered(
            "a Gosub where a Return comes back",
            &called_at_once(),
            NOT_MATCHED,
            5,
        ),
    ]
}

/// A subroutine called from two places, with the results picked by tests.
fn called_twice() -> [Rule; 8] {
    let back = |parameter| Rule::new(RETURN, parameter).inside(7, 1);
    [
        Rule::new(GOSUB, 7),
        failing(Rule::new(GOTO, 4)),
        ignore(),
        Rule::new(GOSUB, 7),
        Rule::new(COUNT, 0).with_test(DEST_PEER_TYPE, 3, 9),
        ignore(),
        back(1).with_test(SOURCE_PEER_TYPE, ALL, 1),
        back(2),
    ]
}

/// A Gosub that comes back to another Gosub.
fn called_at_once() -> [Rule; 6] {
    let back = |home| Rule::new(RETURN, 1).inside(home, 1);
    [
        Rule::new(GOSUB, 5),
        failing(Rule::new(GOSUB, 6)),
        failing(Rule::new(NO_MATCH, 0)),
        ignore(),
        back(5),
        back(6),
    ]
}

/// Calls inside one another, and many calls.
fn calls() -> Vec<EngineCase> {
    let deep = |calls: u8| {
        let words = format!("{calls} calls inside one another");
        answered(
            &words,
            &nested_calls(calls),
            IGNORED,
            2 * u64::from(calls) + 1,
        )
    };
    let mut cases: Vec<EngineCase> = (1..=4).map(deep).collect();
    for length in [1, 2, 3, 6, 12] {
        let words = format!("calls in all rules of parts of {length}");
        let rules = calls_in_all_rules(length);
        cases.push(answered(
            &words,
            &rules,
            IGNORED,
            rules_of_calls(length.into()),
        ));
    }
    let mut ended = nested_calls(4);
    put(&mut ended, 9, Rule::new(COUNT, 0).inside(9, 4));
    cases.push(answered("ended in the fourth call", &ended, COUNTED, 5));
    cases
}

/// The rules come to where all rules of parts of this length call.
fn rules_of_calls(length: u64) -> u64 {
    (0..4).fold(length, |inner, _| (length - 1) * (1 + inner) + 1)
}

/// Pushes to 16 items, PopTo, and what is left in the key.
fn queues() -> Vec<EngineCase> {
    let full = |opcode, parameter| Rule::new(opcode, parameter).holding(16);
    let then = |rules: &[Rule]| followed_by(pushes(16), rules);
    let popped = |last: Rule| then(&[full(POP_TO, 34), last.holding(15)]);
    let pkt = Rule::new(COUNT_PKT, 0).with_test(DEST_INTERFACE, ALL, OUTPUT);
    let (count, pkt) = (popped(Rule::new(COUNT, 0)), popped(pkt));
    let (ignored, not_matched) = (then(&[full(IGNORE, 0)]), then(&[full(NO_MATCH, 0)]));
    let key = key_of_pushes();
    let mut with_output = key.clone();
    with_output[5] = (DEST_INTERFACE, ALL, OUTPUT);
    vec![
        keyed("PopTo of 16, Count", &count, COUNTED, 18, &key),
        keyed("PopTo of 16, CountPkt", &pkt, COUNTED_PKT, 18, &with_output),
        answered("16 items and Ignore", &ignored, IGNORED, 17),
        answered("16 items and NoMatch", &not_matched, NOT_MATCHED, 17),
    ]
}

/// What 15 pushes leave in the key: the first five attributes come again.
fn key_of_pushes() -> Vec<(u8, u32, u32)> {
    let last = [11, 12, 13, 14, 15, 6, 7, 8, 9, 10];
    let entry = |(&attribute, number)| (attribute, number, number);
    VALUED.iter().zip(last).map(entry).collect()
}

/// An untested push and its next rule for each entry, then the last rule.
/// An entry of a PopTo has its opcode and a test of Null.
fn queue_of(entries: &[Rule], last: Rule) -> Vec<Rule> {
    let mut rules = vec![Rule::new(GOTO_ACT, 2)];
    let mut held = 0;
    for &entry in entries {
        let target = rules.len() as u8 + 3;
        let parameter = target;
        rules.push(Rule { parameter, ..entry }.holding(held));
        rules.push(ignore().holding(held));
        held = if entry.is_pop() { held - 1 } else { held + 1 };
    }
    rules.push(last.holding(held));
    rules
}

/// An untested push of the rule's value.
fn push(attribute: u8, mask: u32, value: u32) -> Rule {
    Rule::new(PUSH_RULE_TO_ACT, 0).with_test(attribute, mask, value)
}

/// Untested pushes and PopTos, then a Count of Null, and the key stated.
fn queued(words: &str, entries: &[Rule], key: &[(u8, u32, u32)]) -> EngineCase {
    let rules = queue_of(entries, Rule::new(COUNT, 0).with_test(NULL, 7, 7));
    keyed(words, &rules, COUNTED, entries.len() as u64 + 2, key)
}

/// The attributes of the items in keys.
const A: u8 = SOURCE_PEER_ADDRESS;
const B: u8 = DEST_PEER_ADDRESS;

/// Later items replace mask and value; Null items change nothing.
fn keys() -> Vec<EngineCase> {
    let high = 0xffff_0000;
    let pkt = Rule::new(PUSH_PKT_TO_ACT, 0).with_test(A, high, 9);
    let null = Rule::new(PUSH_PKT_TO_ACT, 0).with_test(NULL, ALL, 3);
    let first = push(A, 3, 4);
    let of_packet = (A, high, SOURCE & high);
    let both = [(A, 3, 4), (B, 5, 6)];
    let last = Rule::new(COUNT, 0).with_test(A, 8, 9);
    let counted = queue_of(&[first], last);
    let cases = vec![
        queued("packet over rule", &[first, pkt], &[of_packet]),
        queued("rule over packet", &[pkt, first], &[(A, 3, 4)]),
        queued("zeros over others", &[first, push(A, 0, 0)], &[]),
        queued("value 0", &[first, push(A, 5, 0)], &[(A, 5, 0)]),
        queued("mask 0", &[first, push(A, 0, 6)], &[(A, 0, 6)]),
        queued("beside its mask", &[push(A, 255, ALL)], &[(A, 255, ALL)]),
        queued("Null items", &[push(NULL, 1, 2), null], &[]),
        queued("two attributes", &[first, push(B, 5, 6)], &both),
        keyed("Count over a push", &counted, COUNTED, 3, &[(A, 8, 9)]),
    ];
    [cases, dropped_items()].concat()
}

/// PopTo takes off the newest item.
fn dropped_items() -> Vec<EngineCase> {
    let pop = Rule::new(POP_TO_ACT, 0);
    let (first, second) = (push(A, 3, 4), push(A, 5, 6));
    let (other, null) = (push(B, 1, 1), push(NULL, 1, 1));
    let kept = [(A, 3, 4)];
    vec![
        queued("PopTo of the newest", &[first, second, pop], &kept),
        queued("PopTo of the only one", &[first, pop], &[]),
        queued("a push behind PopTo", &[first, pop, other], &[(B, 1, 1)]),
        queued("PopTo of a Null item", &[first, null, pop], &kept),
        queued("PopTo twice", &[first, second, other, pop, pop], &kept),
    ]
}

/// Count keeps the rule's value, CountPkt the packet's, tested or not.
fn untested_counts() -> Vec<EngineCase> {
    let (a, mask) = (SOURCE_TRANS_ADDRESS, 0xff0f);
    let port = SOURCE_PORT & mask;
    let case = |words: &str, goto: u8, opcode: u8, value: u32, kept: u32| {
        let last = Rule::new(opcode, 0).with_test(a, mask, value);
        let rules = [Rule::new(goto, 2), last];
        keyed(words, &rules, opcode.into(), 2, &[(a, mask, kept)])
    };
    vec![
        case("Count, tested", GOTO, COUNT, port, port),
        case("CountPkt, tested", GOTO, COUNT_PKT, port, port),
        case("Count, untested", GOTO_ACT, COUNT, 1, 1),
        case("CountPkt, untested", GOTO_ACT, COUNT_PKT, 1, port),
    ]
}

/// Every opcode with a goto flag, and Return, come to with the indicator off
/// and with a test that would fail: they act, and their own flag decides
/// whether the next rule is tested, one that would fail too.
fn untested_actions() -> Vec<EngineCase> {
    let mut cases: Vec<EngineCase> = [6, 7, 10, 11, 12, 13, 14, 15, 16, 17]
        .map(untested_action)
        .into();
    // The Return is come to untested, and so is the rule behind its Gosub.
    let back = failing(Rule::new(RETURN, 1)).inside(4, 1);
    let rules = [
        Rule::new(GOSUB_ACT, 4),
        failing(Rule::new(COUNT, 0)),
        ignore(),
        back,
        ignore().inside(4, 1),
    ];
    let key = [(SOURCE_INTERFACE, ALL, 0)];
    cases.push(keyed("Return untested", &rules, COUNTED, 3, &key));
    cases
}

fn untested_action(opcode: u8) -> EngineCase {
    let pops = opcode == POP_TO || opcode == POP_TO_ACT;
    let place = |rule: Rule| match opcode {
        GOSUB | GOSUB_ACT => rule.inside(4, 1),
        PUSH_RULE_TO..=PUSH_PKT_TO_ACT => rule.holding(1),
        _ => rule,
    };
    let held = u8::from(pops);
    let first = Rule::new(if pops { PUSH_RULE_TO_ACT } else { GOTO_ACT }, 2);
    let rules = [
        first,
        failing(Rule::new(opcode, 4)).holding(held),
        Rule::new(NO_MATCH, 0).holding(held),
        place(Rule::new(COUNT_PKT, 0).with_test(DEST_INTERFACE, 0x0f, 0x0f)),
        place(ignore()),
    ];
    let words = format!("opcode {opcode} untested before a test that fails");
    if opcode % 2 == 0 {
        return answered(&words, &rules, IGNORED, 4);
    }
    // The output is 258, so 2 of it is counted; a push has queued the input
    // or the rule's 0.
    let counted = (DEST_INTERFACE, 0x0f, 2);
    let queued = match opcode {
        PUSH_RULE_TO_ACT => vec![(SOURCE_INTERFACE, ALL, 0), counted],
        PUSH_PKT_TO_ACT => vec![(SOURCE_INTERFACE, ALL, INPUT), counted],
        _ => vec![counted],
    };
    keyed(&words, &rules, COUNTED_PKT, 3, &queued)
}

/// Masks of all and of no bits, and values with bits beside their mask. The
/// input is 80000007.
fn masks() -> Vec<EngineCase> {
    let case = |mask: u32, value: u32, matches: bool| {
        let rules = [Rule::new(IGNORE, 0).with_test(SOURCE_INTERFACE, mask, value)];
        let words = format!("input & {mask:08x} = {value:08x}");
        let answer = if matches { IGNORED } else { NOT_MATCHED };
        answered(&words, &rules, answer, 1)
    };
    vec![
        case(0, 0, true),
        case(0, 1, false),
        case(0, INPUT, false),
        case(0, ALL, false),
        case(ALL, INPUT, true),
        case(ALL, 0, false),
        case(ALL, 7, false),
        case(ALL, ALL, false),
        case(7, 7, true),
        case(7, INPUT, false),
        case(0xff, 7, true),
        case(0xff, 0x107, false),
        case(1 << 31, 1 << 31, true),
        case(1 << 31, 0, false),
        case(8, 0, true),
        case(!INPUT, 0, true),
    ]
}

/// Items stay queued through Gosub and Return; falling off the end loses them.
fn items_across_calls() -> Vec<EngineCase> {
    let high = 0xffff_0000;
    let first = Rule::new(PUSH_RULE_TO, 3).with_test(DEST_PEER_TYPE, ALL, 1);
    let inner = Rule::new(PUSH_PKT_TO, 8).with_test(A, high, SOURCE & high);
    let called = [
        first,
        ignore(),
        Rule::new(GOSUB, 6).holding(1),
        Rule::new(COUNT, 0).with_test(B, 5, 6).holding(2),
        ignore().holding(2),
        inner.inside(6, 1).holding(1),
        ignore().inside(6, 1).holding(1),
        Rule::new(RETURN, 1).inside(6, 1).holding(2),
    ];
    let key = [
        (A, high, SOURCE & high),
        (DEST_PEER_TYPE, ALL, 1),
        (B, 5, 6),
    ];
    let fallen = [first, ignore(), failing(Rule::new(COUNT, 0)).holding(1)];
    vec![
        keyed("items of a subroutine", &called, COUNTED, 5, &key),
        answered("items lost behind the last rule", &fallen, NOT_MATCHED, 2),
    ]
}

/// Each attribute of the packet as tested and as counted.
fn packet_values() -> Vec<EngineCase> {
    let values = [
        INPUT,
        1,
        SOURCE,
        6,
        SOURCE_PORT,
        OUTPUT,
        1,
        DEST,
        6,
        DEST_PORT,
    ];
    let mut cases = Vec::new();
    for (attribute, value) in VALUED.into_iter().zip(values) {
        let counted = |value| [Rule::new(COUNT_PKT, 0).with_test(attribute, ALL, value)];
        let words = format!("attribute {attribute}");
        let key = [(attribute, ALL, value)];
        cases.push(keyed(&words, &counted(value), COUNTED_PKT, 1, &key));
        for other in [value ^ 1, value ^ 1 << 31, 0] {
            cases.push(answered(&words, &counted(other), NOT_MATCHED, 1));
        }
    }
    cases
}

/// The check's refusals, with a flow sample and with octets that are none:
/// all of several Gosubs, and every seventh of the others that are short.
fn refused_sets() -> Vec<EngineCase> {
    let short = |case: &CheckCase| case.set.len() <= 160;
    let others = check_cases().into_iter().filter(short).step_by(7);
    let refused = several_gosubs().into_iter().chain(others);
    refused.enumerate().filter_map(refused_set).collect()
}

fn refused_set((turn, case): (usize, CheckCase)) -> Option<EngineCase> {
    let (number, rule) = case.stated?;
    Some(EngineCase {
        words: case.words,
        set: case.set,
        sample: if turn % 2 == 0 {
            tcp_sample()
        } else {
            vec![9; 3]
        },
        stated: Stated::Refused(number, rule),
    })
}

/// 18, rule 0: octets that are not exactly one flow sample. A flow sample of
/// more octets than a datagram may have is one.
fn refused_samples() -> Vec<EngineCase> {
    let all = attribute_cases();
    let none = all.into_iter().filter(|case| case.stated.is_none());
    let mut cases: Vec<EngineCase> = none
        .map(|case| EngineCase {
            words: case.words,
            set: octets_of_rules(&[ignore()]),
            sample: case.octets,
            stated: Stated::Refused(18, 0),
        })
        .collect();
    cases.push(EngineCase {
        sample: long_sample(Ipv4Form::tcp(4).octets(), 70_000),
        ..answered("a sample of 70,000 octets", &[ignore()], IGNORED, 1)
    });
    cases
}
