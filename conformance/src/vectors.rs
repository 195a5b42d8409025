//! The whole set of test vectors, and the two files that hold it: the octets
//! of each vector behind their length, and the reader's answers as text.

use std::collections::BTreeSet;

use crate::cases::cases;
use crate::damage::damaged;
use crate::dump::answer;
use crate::edges::edge_lengths;
use crate::encoder::encode;
use crate::framing::{file_of, first_string};
use crate::generator::valid_datagrams;
use crate::random::Random;
use crate::reader_situations::reader_situations;

/// The seed of the set that the program `vectors` writes.
pub const SEED: u64 = 3176;

/// Which part of the set a vector belongs to.
#[derive(Clone, Copy, Debug, PartialEq, Eq)]
pub enum Part {
    /// A case of the scope.
    Case,
    /// A situation written by hand.
    Situation,
    /// A valid datagram.
    Valid,
    /// A damaged datagram.
    Damaged,
    /// A datagram whose length is the point.
    EdgeLength,
}

/// One vector of the set.
#[derive(Clone, Debug, PartialEq, Eq)]
pub struct Vector {
    /// Which part it belongs to.
    pub part: Part,
    /// The octets that are read.
    pub octets: Vec<u8>,
}

/// The set for a seed: the reader's cases and situations, then the seed's
/// vectors.
pub fn vectors(seed: u64) -> Vec<Vector> {
    let first = cases().into_iter().map(|case| Vector {
        part: Part::Case,
        octets: case.octets,
    });
    first.chain(seeded(seed)).collect()
}

/// The situations and the vectors that come from a seed. No octets come twice
/// among them; the octets of cases 1 and 2 are among them too.
fn seeded(seed: u64) -> Vec<Vector> {
    let mut random = Random::new(seed);
    let valid = valid_datagrams(&mut random);
    let valid = valid
        .iter()
        .map(|datagram| encode(datagram).octets)
        .collect();
    let situations = reader_situations().into_iter();
    let situations = situations.map(|situation| situation.octets).collect();
    let parts: [(Part, Vec<Vec<u8>>); 4] = [
        (Part::Situation, situations),
        (Part::Valid, valid),
        (Part::Damaged, damaged(&mut random)),
        (Part::EdgeLength, edge_lengths(&mut random)),
    ];
    let mut seen = BTreeSet::new();
    let mut set = Vec::new();
    for (part, strings) in parts {
        for octets in strings {
            if seen.insert(octets.clone()) {
                set.push(Vector { part, octets });
            }
        }
    }
    set
}

/// The vectors' octets, each behind its length in 4 octets, big-endian.
pub fn framed(set: &[Vector]) -> Vec<u8> {
    file_of(set.iter().map(|vector| &vector.octets[..]))
}

/// The strings of octets of a framed file, or nothing if it is cut short.
pub fn unframed(mut file: &[u8]) -> Option<Vec<&[u8]>> {
    let mut strings = Vec::new();
    while !file.is_empty() {
        let (octets, rest) = first_string(file)?;
        strings.push(octets);
        file = rest;
    }
    Some(strings)
}

/// The reader's answers to the vectors.
pub fn answers(set: &[Vector]) -> String {
    set.iter().map(|vector| answer(&vector.octets)).collect()
}
