//! Random datagrams of every form, whole and damaged: mostly small ones, now
//! and then very large ones.

use crate::counters::CountersVersion;
use crate::edges::{encoding_of_length, LONGEST_ACCEPTED};
use crate::encoder::{encode, encode_sample, Encoding};
use crate::generator::every_extended_kind;
use crate::grammar::MAX_HEADER_SIZE;
use crate::parts::*;
use crate::random::Random;
use crate::random_damage::any_damage;

/// Of so many datagrams one is very large.
const LARGE: usize = 400;

/// A datagram of any form: two in five are valid, the others damaged.
pub fn any_datagram(random: &mut Random) -> Vec<u8> {
    let base = valid_datagram(random);
    if random.below(5) < 2 {
        base.octets
    } else {
        any_damage(random, &base)
    }
}

/// A valid datagram of any form.
pub fn valid_datagram(random: &mut Random) -> Encoding {
    if random.below(LARGE) == 0 {
        large(random)
    } else {
        small(random)
    }
}

/// A valid datagram of a few samples.
fn small(random: &mut Random) -> Encoding {
    let chosen = random.below(10);
    let samples = match chosen {
        0 => {
            let protocol = header_protocol(random.below(13));
            let length = random.below(MAX_HEADER_SIZE as usize + 1);
            let data = header(random, protocol, length);
            vec![flow(random, data, Vec::new())]
        }
        1 => {
            let data = packet_data(random);
            let entries = every_extended_kind(random);
            vec![flow(random, data, entries)]
        }
        2 => {
            let all = CountersVersion::ALL.into_iter();
            all.map(|version| counters(random, version)).collect()
        }
        _ => return encode(&mixed(random)),
    };
    encode(&datagram(random, samples))
}

/// A valid datagram that is large by a long string, by its number of samples
/// or by its lists.
pub fn large(random: &mut Random) -> Encoding {
    match random.below(3) {
        0 => {
            let less = 4 * random.below(4);
            encoding_of_length(random, LONGEST_ACCEPTED - less)
        }
        1 => many_samples(random),
        _ => long_lists(random),
    }
}

/// As many random samples as fit.
fn many_samples(random: &mut Random) -> Encoding {
    let mut whole = datagram(random, Vec::new());
    let mut length = encode(&whole).octets.len();
    loop {
        let next = sample(random);
        length += encode_sample(&next).octets.len();
        if length > LONGEST_ACCEPTED {
            return encode(&whole);
        }
        whole.samples.push(next);
    }
}

/// A gateway with up to 300 segments and 6,000 communities, at most about
/// 61,000 octets.
fn long_lists(random: &mut Random) -> Encoding {
    let segments: Vec<usize> = (0..random.below(300)).map(|_| random.below(30)).collect();
    let communities = random.below(6000);
    let entry = gateway(random, &segments, communities);
    let data = packet_data(random);
    let long = flow(random, data, vec![entry]);
    encode(&datagram(random, vec![long]))
}
