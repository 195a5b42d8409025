//! The sample captures and their texts.

use std::collections::BTreeSet;

use conformance::capture::first_datagram;
use conformance::captures::{large_captures, refused_datagrams, small_captures, NamedCapture};
use conformance::listing::list;
use conformance::listing_cases::listing_cases;
use conformance::reader::read;
use conformance::value::{ExtendedData, PacketData, Sample};

/// The sample of this name among all.
fn sample(name: &str) -> NamedCapture {
    let all = [small_captures(), large_captures()].concat();
    let found = all.into_iter().find(|sample| sample.name == name);
    found.expect("a sample of this name")
}

/// The lines of the sample of this name.
fn lines(name: &str) -> Vec<String> {
    let text = String::from_utf8(sample(name).text()).expect("text");
    assert!(text.ends_with('\n') && text.is_ascii());
    text.lines().map(String::from).collect()
}

/// The forms of a datagram's samples, as text.
fn forms(samples: &[Sample]) -> BTreeSet<String> {
    let mut found = BTreeSet::new();
    for sample in samples {
        let flow = match sample {
            Sample::Counters(own) => {
                found.insert(format!("counters {}", own.version.number()));
                continue;
            }
            Sample::Flow(flow) => flow,
        };
        found.insert(match &flow.packet_data {
            PacketData::Header(_) => "header".into(),
            PacketData::Ipv4(_) => "ipv4".into(),
            PacketData::Ipv6(_) => "ipv6".into(),
        });
        found.extend(flow.extended_data.iter().map(|entry| match entry {
            ExtendedData::Switch(_) => "switch".into(),
            ExtendedData::Router(own) => format!("router {}", own.nexthop.type_number()),
            ExtendedData::Gateway(_) => "gateway".into(),
            ExtendedData::User(_) => "user".into(),
            ExtendedData::Url(_) => "url".into(),
        }));
    }
    found
}

#[test]
fn every_form_is_there_from_both_kinds_of_agent() {
    let capture = sample("every-form").capture;
    let (first, rest) = first_datagram(&capture).expect("a record");
    let (second, rest) = first_datagram(rest).expect("a record");
    assert!(rest.is_empty());
    for (datagram, agent) in [(first, 1), (second, 2)] {
        let datagram = read(datagram).expect("accepted").datagram;
        assert_eq!(datagram.agent_address.type_number(), agent);
        // 7 counters versions, 3 packet data kinds, 5 extended data kinds of
        // which one has two forms.
        assert_eq!(forms(&datagram.samples).len(), 7 + 3 + 6);
    }
    let lines = lines("every-form");
    assert!(lines[0].starts_with("1 agent 192.0.2.255 seq "));
    assert!(lines[11].starts_with("2 agent 20010db800000000000000000000abcd seq "));
    assert_eq!(lines[22..], ["records 2 refused 0 samples 20"]);
}

#[test]
fn refusals_are_as_stated_and_in_order() {
    let lines = lines("refusals");
    assert_eq!(lines[0], "1 agent 10.0.0.7 seq 1 length 24");
    let stated = refused_datagrams();
    assert!(stated.iter().map(|(number, ..)| *number).eq(1..=13));
    for (turn, (number, place, _)) in stated.iter().enumerate() {
        let record = 2 * turn + 2;
        let line = &lines[3 * turn + 1..][..3];
        assert_eq!(line[0], format!("{record} refused {number} at {place}"));
        let agent = format!("{} agent 10.0.0.7 seq 1 length 72", record + 1);
        assert_eq!(line[1], agent);
        assert_eq!(line[2], " counters at 24 length 48 source 1.100 seq 5");
    }
    assert_eq!(lines[40..], ["records 27 refused 13 samples 13"]);
}

#[test]
fn the_scopes_example() {
    let stated = [
        "1 agent 10.0.0.7 seq 1 length 72",
        " counters at 24 length 48 source 1.100 seq 5",
        "2 refused 2 at 0",
        "records 2 refused 1 samples 1",
    ];
    assert_eq!(lines("example"), stated);
    assert_eq!(lines("empty"), ["records 0 refused 0 samples 0"]);
}

#[test]
fn bad_ends_behind_good_records() {
    for name in [
        "wrong-mark",
        "length-over-65507",
        "cut-head",
        "cut-datagram",
        "length-over-65507-whole",
    ] {
        let stated = [
            "1 agent 10.0.0.7 seq 1 length 72",
            " counters at 24 length 48 source 1.100 seq 5",
            "2 refused 2 at 0",
            "3 agent 10.0.0.7 seq 1 length 24",
            "capture bad at 112",
            "records 3 refused 1 samples 1",
        ];
        assert_eq!(lines(name), stated, "{name}");
    }
}

#[test]
fn the_longest_datagram_has_as_many_samples_as_fit() {
    let lines = lines("longest-datagram");
    assert_eq!(lines[0], "1 agent 10.0.0.7 seq 1 length 65504");
    let flow = " flow at 65452 length 52 source ";
    assert!(lines[1364].starts_with(flow), "{}", lines[1364]);
    assert_eq!(lines[1365..], ["records 1 refused 0 samples 1364"]);
    // 48 octets are the shortest sample.
    assert_eq!((65_507 - 24) / 48, 1364);
}

#[test]
fn the_longest_record_is_refused_for_its_last_octets() {
    let lines = lines("longest-record");
    assert_eq!(
        sample("longest-record").capture[2..4],
        65_507_u16.to_be_bytes()
    );
    assert_eq!(lines[0], "1 refused 13 at 65504");
    assert_eq!(lines[5..], ["records 4 refused 2 samples 1"]);
}

#[test]
fn names_are_different_and_the_small_ones_are_small() {
    let all = [small_captures(), large_captures()].concat();
    let names: BTreeSet<&str> = all.iter().map(|sample| sample.name).collect();
    assert_eq!(names.len(), all.len());
    let plain = |name: &&str| {
        name.chars()
            .all(|c| c.is_ascii_lowercase() || c.is_ascii_digit() || c == '-')
    };
    assert!(names.iter().all(plain));
    let octets: usize = small_captures()
        .iter()
        .map(|sample| sample.capture.len() + sample.text().len())
        .sum();
    assert!(octets < 70_000, "{octets}");
    assert_eq!(small_captures(), small_captures());
}

#[test]
fn situations_have_the_texts_stated() {
    for case in listing_cases() {
        let text = String::from_utf8(list(&case.capture)).expect("text");
        let shown = &case.capture[..case.capture.len().min(300)];
        assert_eq!(text, case.text, "{shown:02x?}");
    }
}
