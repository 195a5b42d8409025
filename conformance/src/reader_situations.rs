//! Situations of the reader, written by hand: octets, and the number and the
//! place that the scope and its readings state for them. Most are a datagram
//! of every form but the counter bodies, with one or two faults or a cut.

use crate::cases::octets_of;
use crate::damage::{self, cut};
use crate::reader_edges::edge_situations;

/// A situation of the reader.
#[derive(Clone, Debug, PartialEq, Eq)]
pub struct ReaderSituation {
    /// What it is about.
    pub words: String,
    /// The octets that are read.
    pub octets: Vec<u8>,
    /// The refusal's number and place; nothing if accepted.
    pub stated: Option<(u32, usize)>,
}

/// All situations but the long ones.
pub fn reader_situations() -> Vec<ReaderSituation> {
    [
        vec![accepted("every form", every_form())],
        single_faults(),
        two_faults(),
        words_cut_inside(),
        strings_cut_inside(),
        edge_situations(),
        every_cut(),
    ]
    .concat()
}

/// The situation that the octets are refused.
pub fn refused(words: &str, octets: Vec<u8>, number: u32, place: usize) -> ReaderSituation {
    ReaderSituation {
        words: words.into(),
        octets,
        stated: Some((number, place)),
    }
}

/// The situation that the octets are accepted.
pub fn accepted(words: &str, octets: Vec<u8>) -> ReaderSituation {
    ReaderSituation {
        words: words.into(),
        octets,
        stated: None,
    }
}

/// A datagram of 252 octets: from 24 on a flow sample with header data of 5
/// octets (at 72), a router (at 84), a gateway (104), users of 1 and 2 octets
/// (148), a URL of 3 (168) and a switch (184); from 204 on VLAN counters.
pub fn every_form() -> Vec<u8> {
    [
        octets_of(&[4, 1, 0x0a00_0007, 1, 1000, 2]),
        octets_of(&[1, 9, 3, 512, 4096, 0, 1, 2]),
        octets_of(&[1, 1, 64, 5, 0x0102_0304, 0x0500_0000, 5]),
        octets_of(&[2, 1, 0xc000_0201, 24, 24]),
        octets_of(&[3, 100, 101, 102, 1, 2, 1, 103, 1, 0x0001_0002, 105]),
        octets_of(&[4, 1, 0x6100_0000, 2, 0x6263_0000]),
        octets_of(&[5, 1, 3, 0x2f61_6200]),
        octets_of(&[1, 10, 0, 20, 0]),
        octets_of(&[2, 5, 0x0100_0064, 20, 7, 100, 0, 0, 0, 0, 0, 0]),
    ]
    .concat()
}

/// An item of that datagram that can be refused for its value: the number, the
/// place, and a word that is wrong there.
type WrongWord = (u32, usize, u32);

/// The words whose value is tested, from left to right, each with the value
/// behind the greatest that is right.
const TESTED: [WrongWord; 16] = [
    (2, 0, 5),
    (3, 4, 3),
    (4, 24, 3),
    (5, 56, 4),
    (6, 60, 14),
    (7, 68, 257),
    (8, 84, 6),
    (3, 88, 3),
    (8, 104, 6),
    (9, 124, 3),
    (8, 148, 6),
    (8, 168, 6),
    (10, 172, 3),
    (8, 184, 6),
    (4, 204, 3),
    (11, 220, 8),
];

/// The places of the padding octets.
const PADDING: [usize; 9] = [77, 78, 79, 157, 158, 159, 166, 167, 183];

/// A fault of one item: its number, its place, and how it is made.
#[derive(Clone)]
struct Fault {
    number: u32,
    place: usize,
    octets: Vec<u8>,
}

impl Fault {
    /// Puts the fault into the octets, or behind them.
    fn put(&self, datagram: &mut Vec<u8>) {
        let end = (self.place + self.octets.len()).min(datagram.len());
        datagram.splice(self.place..end, self.octets.iter().copied());
    }
}

/// A fault at every item that can be refused, the last one behind the end.
fn faults() -> Vec<Fault> {
    let fault = |number, place, octets| Fault {
        number,
        place,
        octets,
    };
    let tested = TESTED.map(|(number, place, word)| fault(number, place, octets_of(&[word])));
    let padding = PADDING.map(|place| fault(12, place, vec![1]));
    let mut all = [&tested[..], &padding].concat();
    all.sort_by_key(|fault| fault.place);
    all.push(fault(13, 252, vec![0]));
    all
}

/// The datagram with these octets from that place on.
fn with_octets(place: usize, octets: &[u8]) -> Vec<u8> {
    let mut datagram = every_form();
    datagram.splice(place..place + octets.len(), octets.iter().copied());
    datagram
}

/// The datagram with another word at that place.
pub fn with_word(place: usize, word: u32) -> Vec<u8> {
    damage::with_word(&every_form(), place, word)
}

/// Each item wrong alone, in several ways.
fn single_faults() -> Vec<ReaderSituation> {
    let mut all = Vec::new();
    for (number, place, word) in TESTED {
        // 256 is the greatest header length, and 0 is one too.
        let others = if number == 7 { word } else { 0 };
        for wrong in [word, others, u32::MAX, 1 << 31, 1 << 24 | 1] {
            let words = format!("{wrong} at {place}");
            all.push(refused(&words, with_word(place, wrong), number, place));
        }
    }
    for fault in faults().iter().filter(|fault| fault.number > 11) {
        for octet in [1, 0x80, 0xff] {
            let mut octets = every_form();
            let wrong = Fault {
                octets: vec![octet],
                ..fault.clone()
            };
            wrong.put(&mut octets);
            let words = format!("octet {octet} at {}", fault.place);
            all.push(refused(&words, octets, fault.number, fault.place));
        }
    }
    all
}

/// Any two items wrong: the left one is told, 13 behind all others.
fn two_faults() -> Vec<ReaderSituation> {
    let faults = faults();
    let mut all = Vec::new();
    for (turn, left) in faults.iter().enumerate() {
        for right in faults.iter().skip(turn + 1) {
            let mut octets = every_form();
            left.put(&mut octets);
            right.put(&mut octets);
            let words = format!("{} before {}", left.number, right.number);
            all.push(refused(&words, octets, left.number, left.place));
        }
    }
    all
}

/// Tested words of which 0 to 3 octets are there that are wrong already: 1.
/// All four are there and nothing else: the word's own number.
fn words_cut_inside() -> Vec<ReaderSituation> {
    let mut all = Vec::new();
    for (number, place, _) in TESTED {
        let wrong = with_word(place, u32::MAX);
        for there in 0..4 {
            let words = format!("{there} octets ff of the word at {place}");
            all.push(refused(&words, cut(&wrong, place + there), 1, place));
        }
        let words = format!("the word at {place} and no more");
        all.push(refused(&words, cut(&wrong, place + 4), number, place));
    }
    all
}

/// Strings whose padding is wrong and cut: 1 at their first octet. With all
/// padding there and nothing behind it: 12.
fn strings_cut_inside() -> Vec<ReaderSituation> {
    let mut all = Vec::new();
    // The first octet, the first padding octet and the end of each string.
    for (begin, padding, end) in [
        (72, 77, 80),
        (156, 157, 160),
        (164, 166, 168),
        (180, 183, 184),
    ] {
        let wrong = with_octets(padding, &vec![9; end - padding]);
        for length in begin..end {
            let words = format!("wrong padding from {padding}, {length} octets");
            all.push(refused(&words, cut(&wrong, length), 1, begin));
        }
        let words = format!("wrong padding from {padding}, nothing behind");
        all.push(refused(&words, cut(&wrong, end), 12, padding));
    }
    all
}

/// Every beginning: 1 at the item that is missing. All items are words but the
/// header's octets at 72 and the hyper at 228, which have 8 octets.
fn every_cut() -> Vec<ReaderSituation> {
    let cut_at = |length: usize| {
        let place = match length {
            76..=79 => 72,
            232..=235 => 228,
            _ => length - length % 4,
        };
        let words = format!("the first {length} octets");
        refused(&words, cut(&every_form(), length), 1, place)
    };
    (0..252).map(cut_at).collect()
}
