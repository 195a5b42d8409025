//! Random captures from a seed: records with valid and damaged datagrams, and
//! bad ends.

use crate::capture::{head, record, HEAD_OCTETS};
use crate::grammar::MAX_DATAGRAM_SIZE;
use crate::random::Random;
use crate::random_datagrams::any_datagram;

/// Endless records of random datagrams.
pub fn random_records(seed: u64) -> impl Iterator<Item = Vec<u8>> {
    let mut random = Random::new(seed);
    std::iter::repeat_with(move || random_record(&mut random))
}

/// The record of a random datagram. One that is longer than a record may be
/// is cut to the greatest length.
fn random_record(random: &mut Random) -> Vec<u8> {
    let mut datagram = any_datagram(random);
    datagram.truncate(MAX_DATAGRAM_SIZE);
    record(&datagram)
}

/// A bad end of a capture, in a way that the seed chooses: a wrong mark, a
/// length over 65,507, a record cut in its head, or one cut in its datagram.
pub fn bad_end(seed: u64) -> Vec<u8> {
    let mut random = Random::new(seed);
    match random.below(4) {
        0 => wrong_mark(&mut random),
        1 => length_over(&mut random),
        2 => cut_record(&mut random, 1, HEAD_OCTETS),
        _ => cut_record(&mut random, HEAD_OCTETS, usize::MAX),
    }
}

/// A record with one octet of its mark changed, and sometimes a good record
/// behind it.
fn wrong_mark(random: &mut Random) -> Vec<u8> {
    let mut octets = random_record(random);
    let place = random.below(2);
    if let Some(octet) = octets.get_mut(place) {
        *octet ^= 1 + random.below(255) as u8;
    }
    if random.below(2) == 0 {
        octets.extend(random_record(random));
    }
    octets
}

/// A head with a length over 65,507, and as many octets behind it, or fewer.
fn length_over(random: &mut Random) -> Vec<u8> {
    let least = MAX_DATAGRAM_SIZE + 1;
    let length = least + random.below(usize::from(u16::MAX) - MAX_DATAGRAM_SIZE);
    let behind = match random.below(2) {
        0 => length,
        _ => random.below(100),
    };
    let mut octets = head(length).to_vec();
    octets.resize(HEAD_OCTETS + behind, 0);
    octets
}

/// A record of which at least `least` octets are there, but fewer than `most`
/// and not all.
fn cut_record(random: &mut Random, least: usize, most: usize) -> Vec<u8> {
    let mut octets = random_record(random);
    // A datagram without octets has nothing to be cut off.
    if octets.len() == HEAD_OCTETS {
        octets = record(&[0, 0, 0, 4]);
    }
    let most = most.min(octets.len());
    octets.truncate(least + random.below(most.saturating_sub(least)));
    octets
}

/// So many records, of which the heads have two to four changes, half of the
/// time those of one record: a bit of the mark, a length over 65,507, 0 or
/// about the right one, octets of the datagram, or a cut.
pub fn changed_records(random: &mut Random, count: usize) -> Vec<u8> {
    let mut records: Vec<Vec<u8>> = (0..count.max(1)).map(|_| random_record(random)).collect();
    for at in random.several(records.len()) {
        change_record(random, &mut records[at]);
    }
    records.concat()
}

/// Makes one change of a record.
fn change_record(random: &mut Random, record: &mut Vec<u8>) {
    let kind = random.below(6);
    let [_, _, high, low, ..] = record[..] else {
        return;
    };
    let length = u16::from_be_bytes([high, low]);
    let other = match kind {
        0 | 1 => {
            record[random.below(2)] ^= 1 << random.below(8);
            return;
        }
        2 => {
            record.truncate(random.below(record.len()));
            return;
        }
        3 => [0, 65_507, 65_508, u16::MAX][random.below(4)],
        4 => length.wrapping_add(1 + random.below(4) as u16),
        _ => length.wrapping_sub(1 + random.below(4) as u16),
    };
    record.splice(2..4, other.to_be_bytes());
}

#[cfg(test)]
mod tests {
    use super::*;
    use crate::listing::list;

    /// The last two lines of a capture's text.
    fn last_lines(capture: &[u8]) -> Vec<String> {
        let text = String::from_utf8(list(capture)).expect("text");
        let lines: Vec<String> = text.lines().map(String::from).collect();
        lines[lines.len().saturating_sub(2)..].to_vec()
    }

    #[test]
    fn records_are_whole_and_of_both_kinds() {
        let capture: Vec<u8> = random_records(7).take(2000).flatten().collect();
        let text = String::from_utf8(list(&capture)).expect("text");
        let last = text.lines().last().expect("a last line");
        assert!(last.starts_with("records 2000 refused "), "{last}");
        for number in 1..=13 {
            let refused = format!(" refused {number} at ");
            assert!(text.contains(&refused), "{number}");
        }
        assert!(text.contains(" flow at ") && text.contains(" counters at "));
        let long = random_records(7).take(2000).filter(|r| r.len() > 50_000);
        assert!(long.count() > 1);
    }

    #[test]
    fn bad_ends_are_bad_where_they_begin() {
        for seed in 0..400 {
            let good: Vec<u8> = random_records(seed).take(2).flatten().collect();
            let capture = [&good[..], &bad_end(seed)].concat();
            let lines = last_lines(&capture);
            assert_eq!(lines[0], format!("capture bad at {}", good.len()), "{seed}");
            assert!(lines[1].starts_with("records 2 "), "{}", lines[1]);
        }
    }

    #[test]
    fn captures_depend_on_the_seed_alone() {
        let some = |seed| random_records(seed).take(50).collect::<Vec<_>>();
        assert_eq!(some(1), some(1));
        assert_ne!(some(1), some(2));
        assert_eq!(bad_end(3), bad_end(3));
    }
}
