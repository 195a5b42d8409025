//! Situations of the lister, written by hand: captures and the whole texts
//! that the scope and its readings state for them.

use crate::capture::{head, record};
use crate::cases::{beginning, octets_of};
use crate::reader_situations::every_form;

/// A situation of the lister.
#[derive(Clone, Debug, PartialEq, Eq)]
pub struct ListingCase {
    /// The octets of the capture.
    pub capture: Vec<u8>,
    /// What is printed.
    pub text: String,
}

/// All situations.
pub fn listing_cases() -> Vec<ListingCase> {
    [
        lengths(),
        wrong_marks(),
        cut_records(),
        several_faults(),
        agents(),
        sources(),
        samples(),
    ]
    .concat()
}

/// The capture of these octets, and the lines of its text.
fn case(capture: &[&[u8]], lines: &[&str]) -> ListingCase {
    ListingCase {
        capture: capture.concat(),
        text: lines.iter().map(|line| format!("{line}\n")).collect(),
    }
}

/// A good record of 28 octets and its line.
fn good() -> Vec<u8> {
    record(&beginning(0))
}

const GOOD: &str = "1 agent 10.0.0.7 seq 1 length 24";

/// Records of lengths at the ends of their range. Above 65,507 the octets do
/// not matter.
fn lengths() -> Vec<ListingCase> {
    let none = "records 0 refused 0 samples 0";
    let mut cases = vec![
        case(&[], &[none]),
        case(
            &[&head(0)],
            &["1 refused 1 at 0", "records 1 refused 1 samples 0"],
        ),
        case(
            &[&head(0), &head(0), &good()],
            &[
                "1 refused 1 at 0",
                "2 refused 1 at 0",
                "3 agent 10.0.0.7 seq 1 length 24",
                "records 3 refused 2 samples 0",
            ],
        ),
        case(
            &[&record(&[0xff; 65_507])],
            &["1 refused 2 at 0", "records 1 refused 1 samples 0"],
        ),
        case(&[&head(65_507), &[0; 65_506]], &["capture bad at 0", none]),
    ];
    for length in [65_508, 65_509, 65_535] {
        for there in [0, 1, length, length + 28] {
            let octets = vec![0; there];
            cases.push(case(&[&head(length), &octets], &["capture bad at 0", none]));
        }
    }
    cases
}

/// Every wrong value of each octet of the mark, behind a good record. Nothing
/// behind the wrong one is read.
fn wrong_marks() -> Vec<ListingCase> {
    let lines = [GOOD, "capture bad at 28", "records 1 refused 0 samples 0"];
    let mut cases = Vec::new();
    for place in [0, 1] {
        for change in 1..=u8::MAX {
            let mut wrong = good();
            wrong[place] ^= change;
            cases.push(case(&[&good(), &wrong, &good()], &lines));
        }
    }
    let (mut swapped, mut both) = (good(), good());
    swapped.swap(0, 1);
    both[..2].copy_from_slice(&[0x52, 0x75]);
    cases.push(case(&[&good(), &swapped], &lines));
    cases.push(case(&[&good(), &both], &lines));
    cases
}

/// A record cut at every octet, behind a good one.
fn cut_records() -> Vec<ListingCase> {
    let lines = [GOOD, "capture bad at 28", "records 1 refused 0 samples 0"];
    let cut = |length: usize| case(&[&good(), &good()[..length]], &lines);
    (1..28).map(cut).collect()
}

/// Bad records behind refused ones, bad in two ways at once, and refused
/// datagrams with samples, which are not counted.
fn several_faults() -> Vec<ListingCase> {
    let refused = record(&octets_of(&[5]));
    let trailing = record(&[every_form(), vec![0]].concat());
    let (mut wrong, mut long) = (good(), head(65_508).to_vec());
    wrong[1] = 0x47;
    wrong[2] = 0xff;
    wrong[3] = 0xff;
    long[0] = 0x74;
    let lines = [
        "1 refused 2 at 0",
        "2 refused 13 at 252",
        "3 refused 2 at 0",
        "capture bad at 273",
        "records 3 refused 3 samples 0",
    ];
    let mut cases = Vec::new();
    for bad in [
        &wrong[..],
        &wrong[..3],
        &wrong[..2],
        &long,
        &long[..1],
        &[0x73],
        &[0],
    ] {
        let records: [&[u8]; 4] = [&refused, &trailing, &refused, bad];
        cases.push(case(&records, &lines));
        cases.push(case(
            &[bad],
            &["capture bad at 0", "records 0 refused 0 samples 0"],
        ));
    }
    cases
}

/// A datagram without samples from this agent.
fn from(address_type: u32, octets: &[u8], sequence: u32) -> Vec<u8> {
    let (first, last) = (octets_of(&[4, address_type]), octets_of(&[sequence, 9, 0]));
    record(&[&first, octets, &last].concat())
}

/// Agents of both kinds, and the ends of sequence numbers.
fn agents() -> Vec<ListingCase> {
    let end = "records 1 refused 0 samples 0";
    let counted: [u8; 16] = std::array::from_fn(|place| 17 * place as u8);
    let mut last = [0; 16];
    last[15] = 0x0a;
    let one = |octets: &[u8], sequence, line: &str| {
        let address_type = if octets.len() == 4 { 1 } else { 2 };
        case(&[&from(address_type, octets, sequence)], &[line, end])
    };
    vec![
        one(&[0; 4], 0, "1 agent 0.0.0.0 seq 0 length 24"),
        one(
            &[255; 4],
            u32::MAX,
            "1 agent 255.255.255.255 seq 4294967295 length 24",
        ),
        one(
            &[1, 20, 3, 100],
            1 << 31,
            "1 agent 1.20.3.100 seq 2147483648 length 24",
        ),
        one(
            &counted,
            1,
            "1 agent 00112233445566778899aabbccddeeff seq 1 length 36",
        ),
        one(
            &last,
            10,
            "1 agent 0000000000000000000000000000000a seq 10 length 36",
        ),
        one(
            &[0xff; 16],
            u32::MAX,
            "1 agent ffffffffffffffffffffffffffffffff seq 4294967295 length 36",
        ),
    ]
}

/// Sources of both kinds of samples: the top octet and the low 24 bits.
fn sources() -> Vec<ListingCase> {
    let mut cases = Vec::new();
    for (source, words) in [
        (0, "0.0"),
        (0x00ff_ffff, "0.16777215"),
        (0x0100_0000, "1.0"),
        (0xff00_0000, "255.0"),
        (0xff00_0001, "255.1"),
        (u32::MAX, "255.16777215"),
        (0x8000_0100, "128.256"),
    ] {
        let flow = octets_of(&[1, u32::MAX, source, 1, 1, 0, 0, 0, 1, 1, 64, 0, 0]);
        let counters = octets_of(&[2, 0, source, 20, 7, 100, 0, 0, 0, 0, 0, 0]);
        let datagram = [beginning(2), flow, counters].concat();
        cases.push(case(
            &[&record(&datagram)],
            &[
                "1 agent 10.0.0.7 seq 1 length 124",
                &format!(" flow at 24 length 52 source {words} seq 4294967295"),
                &format!(" counters at 76 length 48 source {words} seq 0"),
                "records 1 refused 0 samples 2",
            ],
        ));
    }
    cases
}

/// Samples of accepted datagrams with others between them.
fn samples() -> Vec<ListingCase> {
    let every = record(&every_form());
    let mut refused = every_form();
    refused.truncate(251);
    let lines = [
        "1 agent 10.0.0.7 seq 1 length 252",
        " flow at 24 length 180 source 0.3 seq 9",
        " counters at 204 length 48 source 1.100 seq 5",
        "2 refused 1 at 248",
        "3 agent 10.0.0.7 seq 1 length 252",
        " flow at 24 length 180 source 0.3 seq 9",
        " counters at 204 length 48 source 1.100 seq 5",
        "records 3 refused 1 samples 4",
    ];
    vec![case(&[&every, &record(&refused), &every], &lines)]
}
