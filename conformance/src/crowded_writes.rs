//! Calls of the writer's functions with several faults at once: any of 21, 23,
//! 22 and 20 that can meet in a call.

use crate::cases::octets_of;
use crate::encoder::encode_sample;
use crate::grammar::MAX_DATAGRAM_SIZE;
use crate::parts;
use crate::random::Random;
use crate::random_datagrams::valid_datagram;
use crate::random_writes::{counters_values, flow_values, given_address, random_fill};
use crate::write_calls::*;

/// The faults that a call is to have.
#[derive(Clone, Copy)]
struct Faults {
    /// 21.
    limit: bool,
    /// 23.
    datagram: bool,
    /// 22.
    sample: bool,
    /// 20.
    room: bool,
}

/// A call of `start` or of an append with any of the faults.
pub fn crowded_call(random: &mut Random) -> WriteCall {
    let mut at_random = || random.below(2) == 0;
    let faults = Faults {
        limit: at_random() && at_random(),
        datagram: at_random(),
        sample: at_random(),
        room: at_random(),
    };
    match random.below(5) {
        0 => start_call(random, faults),
        _ => append_call(random, faults),
    }
}

/// The limit and the buffer's length: as they ought to be, or a limit outside
/// its bounds, or a buffer that is shorter than the limit.
fn bounds(random: &mut Random, faults: Faults, limit: usize) -> (usize, usize) {
    let right = limit.clamp(36, MAX_DATAGRAM_SIZE);
    let more = random.below(3) * random.below(40);
    if !faults.limit {
        return (right, right + more);
    }
    match random.below(4) {
        0 => (random.below(36), right + more),
        1 => (MAX_DATAGRAM_SIZE + 1, MAX_DATAGRAM_SIZE + 1 + more),
        2 => (right, right - 1),
        _ => (right, random.below(right)),
    }
}

fn start_call(random: &mut Random, faults: Faults) -> WriteCall {
    let enough = 36 + random.below(4);
    let (limit, length) = bounds(random, faults, enough);
    let mut agent = given_address(random);
    if faults.sample {
        agent.address_type = [0, 3, 0x0100_0001, u32::MAX][random.below(4)];
    }
    let write = Write::Start {
        limit,
        agent,
        sequence: random.word(),
        uptime: random.word(),
    };
    WriteCall {
        buffer: random_fill(random, length),
        write,
    }
}

fn append_call(random: &mut Random, faults: Faults) -> WriteCall {
    let whole = valid_datagram(random).octets;
    let (sample, needed) = appended(random, faults);
    // A right datagram may be longer than the limit, but not the buffer.
    let over_limit = faults.datagram && !faults.limit && random.below(3) == 0;
    let (limit, room) = match over_limit {
        true => (whole.len() - 1 - random.below(4), whole.len()),
        false => (limit_for(random, faults, whole.len(), needed), 0),
    };
    let (limit, enough) = bounds(random, faults, limit);
    let mut buffer = random_fill(random, enough.max(room));
    for (to, &from) in buffer.iter_mut().zip(&whole) {
        *to = from;
    }
    let mut length = whole.len();
    if faults.datagram && !over_limit {
        length = spoil(random, &mut buffer, length, limit);
    }
    WriteCall {
        buffer,
        write: sample.write(limit, length),
    }
}

/// A limit with or without room for so many more octets.
fn limit_for(random: &mut Random, faults: Faults, length: usize, needed: usize) -> usize {
    match faults.room {
        true => length + random.below(needed),
        false => length + needed + random.below(3) * random.below(40),
    }
}

/// Makes the datagram in the buffer one that is refused, or gives a length
/// that is not its own.
fn spoil(random: &mut Random, buffer: &mut [u8], length: usize, limit: usize) -> usize {
    match random.below(5) {
        0 => length + 1 + random.below(4),
        1 => length - 1 - random.below(4),
        2 => limit.saturating_add(1 + random.below(4)),
        3 => usize::MAX,
        _ => {
            let place = [3, 7][random.below(2)];
            if let Some(octet) = buffer.get_mut(place) {
                *octet = 9;
            }
            length
        }
    }
}

/// A sample in any of its forms, and about as many octets as it takes up; with
/// the fault, one that is none.
fn appended(random: &mut Random, faults: Faults) -> (Appended, usize) {
    match random.below(3) {
        0 => {
            let mut octets = encode_sample(&parts::sample(random)).octets;
            let needed = octets.len();
            if faults.sample {
                wrong_sample(random, &mut octets);
            }
            (Appended::Octets(octets), needed)
        }
        1 => {
            let mut flow = flow_values(random);
            if faults.sample {
                flow.entries = flow.entries.wrapping_add(1);
            }
            let needed = 36 + flow.packet_octets.len() + flow.entry_octets.len();
            (Appended::Flow(flow), needed)
        }
        _ => {
            let mut counters = counters_values(random);
            if faults.sample {
                counters.version = [0, 8, 0x0100_0007, u32::MAX][random.below(4)];
            }
            let needed = 20 + 4 * counters.numbers.len();
            (Appended::Counters(counters), needed)
        }
    }
}

/// Makes the octets of a sample such that they are not exactly one.
fn wrong_sample(random: &mut Random, octets: &mut Vec<u8>) {
    match random.below(4) {
        0 => octets.truncate(random.below(octets.len())),
        1 => octets.push(0),
        2 => octets.extend(octets.clone()),
        _ => {
            let word = octets_of(&[[0, 3, 0x0100_0001][random.below(3)]]);
            octets.splice(..4, word);
        }
    }
}
