//! Datagrams whose length is the point: very short and very long ones.

use crate::encoder::{encode, Encoding};
use crate::grammar::MAX_DATAGRAM_SIZE;
use crate::parts::{flow, header, url};
use crate::random::Random;
use crate::value::*;

/// The greatest length that is a multiple of 4, as every datagram's is.
pub const LONGEST_ACCEPTED: usize = 65_504;

/// All datagrams of edge lengths.
pub fn edge_lengths(random: &mut Random) -> Vec<Vec<u8>> {
    let mut all = short();
    all.extend(long(random));
    all
}

/// No octets, and 1 to 8 octets: all zero, of a right beginning, and with a
/// wrong version.
fn short() -> Vec<Vec<u8>> {
    let right = [0, 0, 0, 4, 0, 0, 0, 1];
    let wrong = [0, 0, 0, 5, 0, 0, 0, 3];
    let zero = [0; 8];
    let mut all = vec![Vec::new()];
    for beginning in [right, wrong, zero] {
        for length in 1..=beginning.len() {
            all.push(beginning.iter().copied().take(length).collect());
        }
    }
    all
}

/// The four long ones: the longest accepted; one octet more; 65,507 octets
/// that end before their last padding octet; 65,508 octets that are well
/// formed but for their length.
fn long(random: &mut Random) -> Vec<Vec<u8>> {
    let accepted = of_length(random, LONGEST_ACCEPTED);
    let mut trailing = accepted.clone();
    trailing.push(0);
    let too_long = of_length(random, MAX_DATAGRAM_SIZE + 1);
    let unpadded = too_long.iter().copied().take(MAX_DATAGRAM_SIZE).collect();
    vec![accepted, trailing, unpadded, too_long]
}

/// The octets of a well-formed datagram of this length.
pub fn of_length(random: &mut Random, length: usize) -> Vec<u8> {
    encoding_of_length(random, length).octets
}

/// A well-formed datagram of this length, a multiple of 4, which ends with a
/// URL that has one octet of padding.
pub fn encoding_of_length(random: &mut Random, length: usize) -> Encoding {
    let data = header(random, 1, 255);
    let frame = |random: &mut Random, text: &[u8]| {
        let entries = vec![url(UrlDirection::Src, text)];
        encode(&Datagram {
            agent_address: Address::IpV4([10, 0, 0, 7]),
            sequence_number: 1,
            uptime: 1000,
            samples: vec![flow(random, data.clone(), entries)],
        })
    };
    let without_text = frame(random, &[]).octets.len();
    let text = random.octets(length.saturating_sub(without_text + 1));
    frame(random, &text)
}
