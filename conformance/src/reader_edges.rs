//! Situations of the reader, written by hand, at the ends of ranges: counts
//! and lengths up to 2^32 - 1, items of 8 and 16 octets that are cut, and the
//! greatest length of a datagram.

use crate::cases::{beginning, octets_of};
use crate::damage::cut;
use crate::reader_situations::{accepted, every_form, refused, with_word, ReaderSituation};

/// All of them but the long ones.
pub fn edge_situations() -> Vec<ReaderSituation> {
    [
        huge_lengths(),
        header_limits(),
        other_counts(),
        two_counter_samples(),
        octets_behind(),
        cut_addresses(),
        cut_ipv4_data(),
        cut_bodies(),
    ]
    .concat()
}

/// A string's length of about 2^32 is 1 at its first octet, whatever is
/// there; with its padding it calls for 2^32 octets, which is not none.
fn huge_lengths() -> Vec<ReaderSituation> {
    let mut all = Vec::new();
    for place in [152, 160, 176] {
        for length in [u32::MAX, u32::MAX - 1, u32::MAX - 2, u32::MAX - 3, 1 << 31] {
            let words = format!("length {length} at {place}");
            let octets = with_word(place, length);
            let nothing_behind = cut(&octets, place + 4);
            all.push(refused(&words, octets, 1, place + 4));
            all.push(refused(&words, nothing_behind, 1, place + 4));
        }
    }
    all
}

/// A header's limit before its octets: 7 with all octets, some or none there.
/// A length within the limit is 1 where octets are missing.
fn header_limits() -> Vec<ReaderSituation> {
    let mut all = Vec::new();
    for length in [257, 258, 260, u32::MAX, u32::MAX - 2] {
        let octets = with_word(68, length);
        let words = format!("header length {length}");
        for there in [0, 1, 3, 8] {
            let cut = cut(&octets, 72 + there);
            all.push(refused(&words, cut, 7, 68));
        }
        all.push(refused(&words, octets, 7, 68));
    }
    for length in [181, 253, 255, 256] {
        let words = format!("header length {length}, octets missing");
        all.push(refused(&words, with_word(68, length), 1, 72));
    }
    // 180 octets are there behind the length word; then the count is missing.
    let words = "header length 180, nothing behind";
    all.push(refused(words, with_word(68, 180), 1, 252));
    all
}

/// Counts that are too great or too small. The entry that is read too much
/// begins with what stands there.
fn other_counts() -> Vec<ReaderSituation> {
    let mut all = Vec::new();
    let mut with = |count: u32, place: usize, number: u32, at: usize| {
        let words = format!("count {count} at {place}");
        all.push(refused(&words, with_word(place, count), number, at));
    };
    for many in [u32::MAX, 1 << 31, 1 << 30, 1 << 24] {
        // Samples: a third one is missing.
        with(many, 20, 1, 252);
        // Entries: the counter sample reads as a router whose next hop has
        // its sequence number 5 as type.
        with(many, 80, 3, 208);
        // Segments: the communities' count is a type, the community a count.
        with(many, 120, 1, 252);
        // Words of a segment, and communities: they go on to the end.
        with(many, 128, 1, 252);
        with(many, 136, 1, 252);
    }
    // No samples: octets behind. One: the counter sample is too much.
    with(0, 20, 13, 24);
    with(1, 20, 13, 204);
    with(3, 20, 1, 252);
    // No entries: the router reads as a counter sample with version 24.
    with(0, 80, 11, 100);
    // One entry: then the gateway's type 3 is no sample's type.
    with(1, 80, 4, 104);
    // No segments: its type is the communities' count, its words are these;
    // the local preference is the communities' count, and then 0x00010002 is
    // no extended type.
    with(0, 120, 8, 140);
    all
}

/// Two VLAN counter samples, at 24 and 72: the version of the first, the type
/// of the second and its version, wrong alone and together.
fn two_counter_samples() -> Vec<ReaderSituation> {
    let counters = |kind, version| {
        let words = [kind, 5, 0x0100_0064, 20, version, 100, 0, 0, 0, 0, 0, 0];
        octets_of(&words)
    };
    let with = |first, kind, second| {
        let datagram = [beginning(2), counters(2, first), counters(kind, second)];
        datagram.concat()
    };
    vec![
        accepted("two counter samples", with(7, 2, 7)),
        refused("11 before 4 and 11", with(8, 3, 8), 11, 40),
        refused("11 before 11", with(8, 2, 8), 11, 40),
        refused("4 before 11", with(7, 3, 8), 4, 72),
        refused("the second's 11", with(7, 2, 8), 11, 88),
        refused(
            "11 before a missing sample",
            cut(&with(8, 2, 7), 72),
            11,
            40,
        ),
        refused("11 before a missing body", cut(&with(8, 2, 7), 44), 11, 40),
        refused("a missing sample", cut(&with(7, 2, 7), 72), 1, 72),
    ]
}

/// 13 at the first of the octets behind the last sample, however many there
/// are, zeros and others, a sample too many among them.
fn octets_behind() -> Vec<ReaderSituation> {
    let mut all = Vec::new();
    for (datagram, end) in [(beginning(0), 24), (every_form(), 252)] {
        for more in (1..=9).chain([12, 16, 48]) {
            for fill in [0, 1, 0xff] {
                let octets = [&datagram[..], &vec![fill; more]].concat();
                let words = format!("{more} octets {fill} behind the end");
                all.push(refused(&words, octets, 13, end));
            }
        }
        let sample = octets_of(&[2, 5, 0x0100_0064, 20, 7, 100, 0, 0, 0, 0, 0, 0]);
        let octets = [&datagram[..], &sample].concat();
        all.push(refused("a sample behind the end", octets, 13, end));
    }
    all
}

/// From an IPv6 agent, IPv6 data and a router with an IPv6 next hop: 164
/// octets, and every beginning of them. The addresses at 8, 80, 96 and 140
/// are items of 16 octets, all others words.
fn cut_addresses() -> Vec<ReaderSituation> {
    let whole = [
        octets_of(&[4, 2]),
        vec![0xfd; 16],
        octets_of(&[1, 1000, 1]),
        octets_of(&[1, 9, 3, 512, 4096, 0, 1, 2]),
        octets_of(&[3, 60, 6]),
        vec![0x20; 32],
        octets_of(&[80, 81, 2, 7, 1]),
        octets_of(&[2, 2]),
        vec![0x30; 16],
        octets_of(&[64, 64]),
    ]
    .concat();
    let cut_at = |length: usize| {
        let place = match length {
            8..=23 => 8,
            80..=95 => 80,
            96..=111 => 96,
            140..=155 => 140,
            _ => length - length % 4,
        };
        let words = format!("from an IPv6 agent, the first {length} octets");
        refused(&words, cut(&whole, length), 1, place)
    };
    let mut all: Vec<ReaderSituation> = (0..164).map(cut_at).collect();
    all.push(accepted("from an IPv6 agent", whole));
    all
}

/// IPv4 data: 96 octets, all items words.
fn cut_ipv4_data() -> Vec<ReaderSituation> {
    let whole = [
        beginning(1),
        octets_of(&[1, 9, 3, 512, 4096, 0, 1, 2]),
        octets_of(&[2, 40, 6, 0x0a00_0001, 0x0a00_0002, 80, 81, 2, 0, 0]),
    ]
    .concat();
    let cut_at = |length: usize| {
        let words = format!("IPv4 data, the first {length} octets");
        refused(&words, cut(&whole, length), 1, length - length % 4)
    };
    let mut all: Vec<ReaderSituation> = (56..96).map(cut_at).collect();
    all.push(accepted("IPv4 data", whole));
    all
}

/// For each counters version the octets of its body and the places of its
/// hypers in it; all other items are words.
const BODIES: [(u32, usize, &[usize]); 7] = [
    (1, 88, &[8, 24, 56]),
    (2, 140, &[8, 24, 56]),
    (3, 160, &[8, 24, 56]),
    (4, 88, &[8, 24, 56]),
    (5, 168, &[8, 24, 56, 92, 104, 132, 144, 152, 160]),
    (6, 88, &[8, 24, 56]),
    (7, 28, &[4]),
];

/// Every counter body, whole, with one octet more, and cut at the beginning
/// of each word of it and before its last octet.
fn cut_bodies() -> Vec<ReaderSituation> {
    let mut all = Vec::new();
    for (version, octets, hypers) in BODIES {
        let head = octets_of(&[2, 5, 0x0100_0064, 20, version]);
        let whole = [beginning(1), head, vec![0xff; octets]].concat();
        let words = format!("counters version {version}");
        for there in (0..octets).filter(|there| there % 4 == 0 || there % 4 == 3) {
            let word = there - there % 4;
            let in_hyper = word > 0 && hypers.contains(&(word - 4));
            let place = 44 + if in_hyper { word - 4 } else { word };
            all.push(refused(&words, cut(&whole, 44 + there), 1, place));
        }
        let longer = [&whole[..], &[0]].concat();
        all.push(refused(&words, longer, 13, 44 + octets));
        all.push(accepted(&words, whole));
    }
    all
}

/// Situations with about 65,507 octets: the length before all else, and what
/// is told of datagrams that are just not too long.
pub fn long_situations() -> Vec<ReaderSituation> {
    let filled = |mut octets: Vec<u8>, length: usize, fill: u8| {
        octets.resize(length, fill);
        octets
    };
    let mut all = Vec::new();
    for length in [65_508, 65_509, 65_536, 70_000] {
        for (words, octets, fill) in [
            ("garbage", Vec::new(), 0xff),
            ("zeros", Vec::new(), 0),
            ("a right beginning", beginning(0), 0),
            ("a wrong version", octets_of(&[5]), 0),
            ("every form", every_form(), 1),
        ] {
            let words = format!("{words}, {length} octets");
            all.push(refused(&words, filled(octets, length, fill), 14, 0));
        }
    }
    for length in [65_504, 65_505, 65_506, 65_507] {
        let words = format!("{length} octets");
        all.push(refused(&words, filled(Vec::new(), length, 0xff), 2, 0));
        all.push(refused(&words, filled(beginning(0), length, 0), 13, 24));
        all.push(refused(&words, filled(every_form(), length, 0), 13, 252));
    }
    all.extend(long_urls());
    all
}

/// A URL of so many octets, the length word at 84, that is there with its
/// padding; the datagram is cut or filled up to this length.
fn long_url(direction: u32, length: u32, whole: usize) -> Vec<u8> {
    let mut octets = [
        beginning(1),
        octets_of(&[1, 9, 3, 512, 4096, 0, 1, 2]),
        octets_of(&[1, 1, 64, 0, 1]),
        octets_of(&[5, direction, length]),
        vec![b'/'; length as usize],
    ]
    .concat();
    octets.resize(whole, 0);
    octets
}

/// URLs that end the longest datagrams. 88 octets and 65,416 are 65,504, the
/// greatest length that a datagram can have.
fn long_urls() -> Vec<ReaderSituation> {
    let mut all = Vec::new();
    let mut with = |direction, length, whole, stated: Option<(u32, usize)>| {
        let words = format!("a URL of {length} octets, {whole} in all");
        let octets = long_url(direction, length, whole);
        all.push(match stated {
            Some((number, place)) => refused(&words, octets, number, place),
            None => accepted(&words, octets),
        });
    };
    for length in [65_413, 65_415, 65_416] {
        with(2, length, 65_503, Some((1, 88)));
        with(2, length, 65_504, None);
        with(2, length, 65_505, Some((13, 65_504)));
        with(2, length, 65_507, Some((13, 65_504)));
        with(2, length, 65_508, Some((14, 0)));
    }
    for length in [65_417, 65_419, 65_420] {
        with(2, length, 65_507, Some((1, 88)));
        with(3, length, 65_507, Some((10, 80)));
        with(2, length, 65_508, Some((14, 0)));
        with(3, length, 65_508, Some((14, 0)));
    }
    all
}
