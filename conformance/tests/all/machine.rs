//! The machine: where it is stuck, and that no accepted set makes it stuck.

use conformance::attributes::{attributes, exact_flow_sample, Attributes, SOURCE_INTERFACE};
use conformance::check::check;
use conformance::check_vectors::check_vectors;
use conformance::machine::{Answer, Item, Machine, Step};
use conformance::packets::tcp_sample;
use conformance::random::Random;
use conformance::random_samples::flow_sample;
use conformance::rule_generator::{accepted_set, any_plan};
use conformance::rule_sets::{calls_in_all_rules, nested_calls, pushes};
use conformance::rules::*;
use conformance::vectors::SEED;

fn tcp_attributes() -> Attributes {
    attributes(&exact_flow_sample(&tcp_sample()).expect("a flow sample"))
}

/// The answer and the rules come to.
fn run(rules: &[Rule]) -> (Option<Answer>, u64) {
    let mut machine = Machine::new(rules, tcp_attributes());
    (machine.run(), machine.count)
}

#[test]
fn it_is_stuck_where_there_is_no_rule() {
    assert_eq!(run(&[]), (None, 0));
    for opcode in 6..=15 {
        for parameter in [0, 2, 255] {
            assert_eq!(run(&[Rule::new(opcode, parameter)]), (None, 1));
        }
    }
    let returns = |parameter| [Rule::new(GOSUB, 2), Rule::new(RETURN, parameter)];
    assert_eq!(run(&returns(2)), (None, 2));
    assert_eq!(run(&returns(255)), (None, 2));
}

#[test]
fn it_is_stuck_with_nothing_to_take() {
    for opcode in [RETURN, POP_TO, POP_TO_ACT] {
        let rules = [Rule::new(opcode, 2), Rule::new(IGNORE, 0)];
        assert_eq!(run(&rules), (None, 1));
    }
    let twice = [
        Rule::new(PUSH_RULE_TO, 2),
        Rule::new(POP_TO, 3),
        Rule::new(POP_TO_ACT, 4),
        Rule::new(IGNORE, 0),
    ];
    assert_eq!(run(&twice), (None, 3));
}

#[test]
fn it_is_stuck_with_opcodes_without_meaning() {
    for opcode in (18..=255).chain([0]) {
        assert_eq!(run(&[Rule::new(opcode, 1)]), (None, 1));
    }
}

#[test]
fn assign_only_goes_on() {
    let fails = Rule::new(COUNT, 0).with_test(SOURCE_INTERFACE, 0, 1);
    for (opcode, answer) in [(ASSIGN, Answer::Ignore), (ASSIGN_ACT, Answer::Count)] {
        let rules = [Rule::new(opcode, 2), fails, Rule::new(IGNORE, 0)];
        assert_eq!(run(&rules).0, Some(answer));
    }
}

#[test]
fn it_looks_at_nothing_declared() {
    let rules = [
        Rule::new(GOSUB, 3).inside(9, 9).holding(99),
        Rule::new(IGNORE, 0),
        Rule::new(RETURN, 1),
    ];
    assert_eq!(run(&rules), (Some(Answer::Ignore), 3));
}

#[test]
fn its_lists_have_no_limit() {
    let mut rules: Vec<Rule> = (2..=201).map(|next| Rule::new(GOSUB, next)).collect();
    rules.extend((202..=251).map(|next| Rule::new(PUSH_PKT_TO, next)));
    rules.push(Rule::new(COUNT, 0));
    let mut machine = Machine::new(&rules, tcp_attributes());
    assert_eq!(machine.run(), Some(Answer::Count));
    assert_eq!((machine.calls.len(), machine.items.len()), (200, 51));
}

#[test]
fn items_are_the_rules_or_the_packets() {
    let push = |opcode, next| {
        let input = tcp_attributes().source_interface;
        Rule::new(opcode, next).with_test(SOURCE_INTERFACE, 0xff, input & 0xff)
    };
    let untested = Rule::new(PUSH_RULE_TO_ACT, 4).with_test(SOURCE_INTERFACE, 0xff, 9);
    let rules = [
        push(PUSH_RULE_TO, 2),
        push(PUSH_PKT_TO_ACT, 3),
        untested,
        Rule {
            opcode: COUNT_PKT,
            ..untested
        },
    ];
    let mut machine = Machine::new(&rules, tcp_attributes());
    assert_eq!(machine.run(), Some(Answer::CountPkt));
    let item = |value| Item {
        attribute: SOURCE_INTERFACE,
        mask: 0xff,
        value,
    };
    assert_eq!(machine.items, [item(7), item(7), item(9), item(7)]);
}

/// The most rules that a run of an accepted set comes to. In one call the
/// numbers grow, so no two rules come with the same open calls; and each rule
/// comes with one depth only.
fn bound(rules: &[Rule]) -> u64 {
    let of_depth = |depth: u8| rules.iter().filter(move |rule| rule.depth == depth);
    let chains = |depth: u8| {
        (0..=depth)
            .map(|d| of_depth(d).count() as u64)
            .product::<u64>()
    };
    (0..5).map(chains).sum()
}

/// The greatest numbers of calls and of items in a run.
#[derive(Clone, Copy, Debug, Default, PartialEq, Eq)]
struct Reach {
    calls: usize,
    items: usize,
    rules: u64,
}

/// Runs an accepted set and holds every arrival against the declarations.
fn watched_run(rules: &[Rule], attributes: Attributes) -> Reach {
    let mut machine = Machine::new(rules, attributes);
    let mut reach = Reach::default();
    loop {
        arrives_as_declared(rules, &machine);
        reach.calls = reach.calls.max(machine.calls.len());
        let step = machine.step();
        reach.items = reach.items.max(machine.items.len());
        assert_ne!(step, Step::Stuck);
        if let Step::Ends(_) = step {
            break;
        }
    }
    reach.rules = machine.count;
    assert!(reach.calls <= 4 && reach.items <= 16, "{reach:?}");
    assert!(reach.rules <= bound(rules), "{reach:?}");
    reach
}

fn arrives_as_declared(rules: &[Rule], machine: &Machine) {
    let rule = rule_at(rules, machine.number).expect("a rule");
    let called = machine
        .calls
        .last()
        .and_then(|&gosub| rule_at(rules, gosub));
    assert_eq!(rule.home, called.map_or(0, |gosub| gosub.parameter));
    assert_eq!(usize::from(rule.depth), machine.calls.len());
    assert_eq!(usize::from(rule.held), machine.items.len());
}

#[test]
fn accepted_random_sets_are_never_stuck() {
    let mut random = Random::new(SEED + 1);
    let (mut deep, mut full, mut long) = (0, 0, 0);
    for turn in 0..1500 {
        let packets: Vec<Attributes> = (0..3)
            .map(|_| attributes(&flow_sample(&mut random)))
            .collect();
        let plan = any_plan(&mut random, 1 + turn % 255);
        let rules = accepted_set(&mut random, &plan, &packets);
        assert_eq!(check(&octets_of_rules(&rules)).as_ref(), Ok(&rules));
        for packet in packets {
            let reach = watched_run(&rules, packet);
            deep += usize::from(reach.calls == 4);
            full += usize::from(reach.items == 16);
            long += usize::from(reach.rules >= 30);
        }
    }
    assert!(
        deep >= 20 && full >= 20 && long >= 100,
        "{deep} {full} {long}"
    );
}

#[test]
fn accepted_vectors_are_never_stuck() {
    let mut random = Random::new(SEED + 2);
    let mut accepted = 0;
    // One set comes to 325,255,101 rules.
    let longest = octets_of_rules(&calls_in_all_rules(51));
    for set in check_vectors(SEED).iter().filter(|&set| *set != longest) {
        if let Ok(rules) = check(set) {
            accepted += 1;
            for _ in 0..4 {
                watched_run(&rules, attributes(&flow_sample(&mut random)));
            }
        }
    }
    assert!(accepted >= 500, "{accepted}");
}

#[test]
fn the_limits_are_reached() {
    assert_eq!(watched_run(&nested_calls(4), tcp_attributes()).calls, 4);
    let mut rules = pushes(16);
    rules.push(Rule::new(IGNORE, 0).holding(16));
    assert_eq!(watched_run(&rules, tcp_attributes()).items, 16);
    let rules = calls_in_all_rules(7);
    let reach = watched_run(&rules, tcp_attributes());
    assert!(reach.rules * 3 > bound(&rules), "{reach:?}");
}
