//! The reader's cases of the rules, and further octets written by hand.

use std::collections::BTreeSet;

use conformance::cases::{beginning, cases, header_datagram, octets_of, Stated};
use conformance::counters::CountersVersion;
use conformance::cursor::Span;
use conformance::encoder::encode;
use conformance::reader::{read, Reading};
use conformance::reader_edges::long_situations;
use conformance::reader_situations::{every_form, reader_situations};
use conformance::value::*;

/// The number and place with which the octets are refused.
fn refused(octets: &[u8]) -> Option<(u32, usize)> {
    read(octets)
        .err()
        .map(|refusal| (refusal.number(), refusal.place))
}

fn accepted(octets: &[u8]) -> Reading {
    read(octets).expect("accepted")
}

/// The octets of the case with this number, the first of two.
fn octets_of_case(number: u32) -> Vec<u8> {
    let case = cases().into_iter().find(|case| case.number == number);
    case.expect("a case of the reader").octets
}

#[test]
fn cases_are_those_of_the_rules_in_their_order() {
    let numbers: Vec<u32> = cases().iter().map(|case| case.number).collect();
    assert_eq!(numbers, [1, 2, 3, 4, 5, 6, 7, 8, 9, 10, 10]);
}

#[test]
fn cases_are_answered_as_stated() {
    for case in cases() {
        let (number, words) = (case.number, case.words);
        match (read(&case.octets), case.stated) {
            (Err(refusal), Stated::Refused(fault, place)) => {
                let text = format!(": {} at {}", refusal.number(), refusal.place);
                assert!(words.ends_with(&text), "case {number}: {words}");
                assert_eq!((refusal.number(), refusal.place), (fault, place));
            }
            (Ok(reading), Stated::Accepted(datagram)) => {
                assert_eq!(reading.datagram, datagram, "case {number}: {words}");
                assert_eq!(encode(&datagram).octets, case.octets);
            }
            (answer, _) => panic!("case {number}: {words}: {answer:?}"),
        }
    }
}

#[test]
fn cases_have_the_octets_they_name() {
    assert_eq!(octets_of_case(3).len(), 24);
    assert_eq!(octets_of_case(4), octets_of_case(3)[..23]);
    assert_eq!(octets_of_case(5)[..24], octets_of_case(3));
    assert_eq!(octets_of_case(5)[24..], [0]);
    assert_eq!(octets_of_case(6)[20..], [0, 0, 0, 1]);
    assert_eq!(octets_of_case(7).len(), 72);
    assert_eq!(octets_of_case(8)[40..44], [0, 0, 0, 8]);
    let padding = octets_of_case(9);
    assert_eq!((padding[77], padding[78] != 0), (0, true));
    assert_eq!(octets_of_case(10)[68..72], [0, 0, 1, 1]);
}

#[test]
fn places_in_accepted_cases() {
    let span = |offset, length| Span { offset, length };
    assert_eq!(accepted(&octets_of_case(3)).first_sample, 24);
    let counters = accepted(&octets_of_case(7));
    assert_eq!(counters.places[0].sample, span(24, 48));
    let header = accepted(&header_datagram(256, &[7; 256]));
    assert_eq!(header.places[0].sample, span(24, 308));
    assert_eq!(header.places[0].strings, [span(72, 256)]);
}

#[test]
fn cases_8_and_9_without_their_fault() {
    let mut octets = octets_of_case(8);
    octets[43] = 7;
    assert_eq!(octets, octets_of_case(7));
    let mut octets = octets_of_case(9);
    octets[78] = 0;
    let string = Span {
        offset: 72,
        length: 5,
    };
    assert_eq!(accepted(&octets).places[0].strings, [string]);
}

#[test]
fn header_limit_comes_before_the_octets() {
    assert_eq!(refused(&header_datagram(257, &[])), Some((7, 68)));
}

#[test]
fn gateway_written_by_hand() {
    let sample = octets_of(&[1, 9, 3, 512, 4096, 0, 1, 2]);
    let ipv4 = octets_of(&[2, 40, 6, 0x0a00_0001, 0x0a00_0002, 80, 81, 2, 0]);
    let one_gateway = octets_of(&[1, 3, 100, 101, 102]);
    let sequence_and_empty_set = octets_of(&[2, 2, 1, 103, 1, 0]);
    let community_and_localpref = octets_of(&[1, 104, 105]);
    let whole = [
        beginning(1),
        sample,
        ipv4,
        one_gateway,
        sequence_and_empty_set,
        community_and_localpref,
    ]
    .concat();
    let reading = accepted(&whole);
    assert_eq!(encode(&reading.datagram).octets, whole);
    let Sample::Flow(flow) = &reading.datagram.samples[0] else {
        panic!("a flow sample")
    };
    let ExtendedData::Gateway(gateway) = &flow.extended_data[0] else {
        panic!("a gateway")
    };
    assert_eq!(
        gateway.dst_as_path,
        [AsPath::AsSequence(vec![103]), AsPath::AsSet(Vec::new())]
    );
    assert_eq!(
        (&gateway.communities[..], gateway.localpref),
        (&[104][..], 105)
    );
}

#[test]
fn body_lengths() {
    let lengths = CountersVersion::ALL.map(|version| {
        let sample = CountersSample {
            sequence_number: 0,
            source_id: 0,
            sampling_interval: 0,
            version,
            counters: Vec::new(),
        };
        let datagram = Datagram {
            agent_address: Address::IpV6([0; 16]),
            sequence_number: 0,
            uptime: 0,
            samples: vec![Sample::Counters(sample)],
        };
        encode(&datagram).octets.len() - 36 - 20
    });
    assert_eq!(lengths, [88, 140, 160, 88, 168, 88, 28]);
}

#[test]
fn length_comes_before_all() {
    for length in [65_508, 65_509, 70_000] {
        assert_eq!(refused(&vec![0; length]), Some((14, 0)));
    }
    assert_eq!(refused(&vec![0; 65_507]), Some((2, 0)));
}

#[test]
fn cut_string_is_refused_at_its_first_octet() {
    // A non-zero padding octet is there, but the last padding octet is not.
    let whole = header_datagram(5, &[1, 2, 3, 4, 5, 9, 9]);
    assert_eq!(refused(&whole[..79]), Some((1, 72)));
}

#[test]
fn situations_are_answered_as_stated() {
    let mut wrong = Vec::new();
    for situation in [reader_situations(), long_situations()].concat() {
        let answer = refused(&situation.octets);
        if answer != situation.stated {
            let (words, stated) = (situation.words, situation.stated);
            wrong.push(format!("{words}: {answer:?}, stated {stated:?}"));
        }
    }
    assert!(wrong.is_empty(), "{wrong:#?}");
}

#[test]
fn the_datagram_of_the_situations_has_every_number() {
    assert_eq!(every_form().len(), 252);
    let situations = [reader_situations(), long_situations()].concat();
    let stated = situations
        .iter()
        .map(|own| own.stated.map_or(0, |(n, _)| n));
    let numbers: BTreeSet<u32> = stated.collect();
    assert_eq!(numbers, BTreeSet::from_iter(0..=14));
}
