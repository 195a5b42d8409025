//! Rule sets.
use crate::forms;
use troutgable::*;

fn rule(attribute: Attribute, opcode: Opcode, mask: u32, value: u32, parameter: u8) -> Rule {
    Rule {
        attribute,
        opcode,
        mask,
        value,
        parameter,
        ..Rule::default()
    }
}

fn octets(rules: &[Rule]) -> Vec<u8> {
    rules.iter().flat_map(Rule::octets).collect()
}

fn counting(last: Opcode) -> Vec<u8> {
    octets(&[
        rule(
            Attribute::SourceInterface,
            Opcode::Ignore,
            0xffff_ffff,
            5,
            0,
        ),
        rule(
            Attribute::DestTransAddress,
            Opcode::PushPktToAct,
            0xff,
            216,
            4,
        ),
        Rule::default(),
        Rule {
            held: 1,
            ..rule(Attribute::SourcePeerAddress, last, 0xf0, 0x99, 0)
        },
    ])
}

#[test]
fn checks() {
    assert_eq!(check(&counting(Opcode::Count)), Ok(()));
    let refused =
        |rules: &[u8], reason, rule| assert_eq!(check(rules), Err(RuleRefusal { reason, rule }));
    refused(&[], RuleReason::SetLength, 0);
    refused(&counting(Opcode::Count)[..63], RuleReason::SetLength, 0);
    refused(&octets(&[Rule::default(); 256]), RuleReason::SetLength, 0);
    refused(
        &octets(&[
            Rule::default(),
            rule(Attribute::Null, Opcode::Return, 0, 0, 1),
        ]),
        RuleReason::ReturnHome,
        2,
    );
    refused(
        &octets(&[Rule {
            held: 1,
            ..Rule::default()
        }]),
        RuleReason::FirstRule,
        1,
    );
    for (place, octet, reason) in [
        (17, 0, RuleReason::Mark),
        (18, 23, RuleReason::Attribute),
        (19, 8, RuleReason::Opcode),
    ] {
        let mut rules = counting(Opcode::Count);
        rules[place] = octet;
        refused(&rules, reason, 2);
    }
}

#[test]
fn counts() {
    let sample = forms::flow(forms::ipv4_data(), 0, vec![]);
    for (opcode, answer, value) in [
        (Opcode::Count, Answer::Count, 0x99),
        (Opcode::CountPkt, Answer::CountPkt, 0xd0),
    ] {
        let outcome = run(&counting(opcode), &sample).unwrap();
        assert_eq!((outcome.answer, outcome.rules), (answer, 3));
        let items: Vec<_> = outcome.key.items().collect();
        assert_eq!(
            items,
            [
                (Attribute::SourcePeerAddress, 0xf0, value),
                (Attribute::DestTransAddress, 0xff, 216)
            ]
        );
        assert_eq!((outcome.key.masks[9], outcome.key.values[22]), (0xf0, 216));
    }
}

#[test]
fn other_answers() {
    let sample = forms::flow(forms::ipv4_data(), 0, vec![]);
    let ended = |rules: &[Rule]| {
        run(&octets(rules), &sample).map(|outcome| (outcome.answer, outcome.rules))
    };
    assert_eq!(
        ended(&[rule(
            Attribute::SourceInterface,
            Opcode::Ignore,
            0xffff_ffff,
            406,
            0
        )]),
        Ok((Answer::Ignore, 1))
    );
    assert_eq!(
        ended(&[rule(
            Attribute::DestInterface,
            Opcode::Ignore,
            0xffff_ffff,
            406,
            0
        )]),
        Ok((Answer::NoMatch, 1))
    );
    let refusal = run(&Rule::default().octets(), &sample[1..]).unwrap_err();
    assert_eq!((refusal.number(), refusal.rule), (18, 0));
    let refusal = ended(&[
        Rule::default(),
        rule(Attribute::Null, Opcode::Goto, 0, 0, 2),
    ])
    .unwrap_err();
    assert_eq!((refusal.number(), refusal.rule), (37, 2));
}
