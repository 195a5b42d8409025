//! Random calls of the writer's functions: values right and wrong, and
//! buffers long enough or not.

use crate::cases::octets_of;
use crate::counters::CountersVersion;
use crate::crowded_writes::crowded_call;
use crate::damage::scramble;
use crate::encoder::{encode_extended_data, encode_packet_data, encode_sample};
use crate::grammar::MAX_DATAGRAM_SIZE;
use crate::parts;
use crate::random::Random;
use crate::random_datagrams::{any_datagram, valid_datagram};
use crate::value::*;
use crate::write_calls::*;
use crate::writer::GivenAddress;

/// A call of any function, at times with several faults.
pub fn any_call(random: &mut Random) -> WriteCall {
    match random.below(10) {
        0 => start_call(random),
        1..=3 => append_call(random),
        4 | 5 => crowded_call(random),
        _ => form_call(random),
    }
}

/// A call that starts a datagram.
fn start_call(random: &mut Random) -> WriteCall {
    let limit = limit_near(random, 36);
    let length = buffer_length(random, limit);
    let write = Write::Start {
        limit,
        agent: given_address(random),
        sequence: random.word(),
        uptime: random.word(),
    };
    WriteCall {
        buffer: random_fill(random, length),
        write,
    }
}

/// A limit about which there is something to test, given the end that the
/// datagram would have.
fn limit_near(random: &mut Random, end: usize) -> usize {
    match random.below(16) {
        0 => [0, 24, 35, 36, 37][random.below(5)],
        1 => MAX_DATAGRAM_SIZE - 1 + random.below(3),
        2 => random.word() as usize,
        3 => end.saturating_sub(1),
        4 | 5 => end,
        6 => end.saturating_sub(random.below(60)),
        _ => end + random.below(200),
    }
}

/// The length of a buffer for this limit: mostly enough. Limits that no
/// buffer may have do not call for memory.
fn buffer_length(random: &mut Random, limit: usize) -> usize {
    let limit = limit.min(MAX_DATAGRAM_SIZE + 5);
    match random.below(8) {
        0 => limit.saturating_sub(1),
        1 => random.below(limit + 1),
        2..=4 => limit,
        _ => limit + random.below(50),
    }
}

/// So many octets, all the same or, if they are few, all different.
pub fn random_fill(random: &mut Random, length: usize) -> Vec<u8> {
    if length < 300 {
        random.octets(length)
    } else {
        vec![random.hyper() as u8; length]
    }
}

/// A call that appends a sample, given as octets or as values.
fn append_call(random: &mut Random) -> WriteCall {
    let datagram = match random.below(6) {
        0 => any_datagram(random),
        _ => valid_datagram(random).octets,
    };
    let length = near(random, datagram.len());
    let sample = encode_sample(&parts::sample(random)).octets;
    let limit = limit_near(random, datagram.len() + sample.len());
    let room = buffer_length(random, limit);
    let mut buffer = random_fill(random, room);
    for (to, from) in buffer.iter_mut().zip(datagram) {
        *to = from;
    }
    let write = match random.below(3) {
        0 => Write::AppendFlow {
            limit,
            length,
            flow: flow_values(random),
        },
        1 => Write::AppendCounters {
            limit,
            length,
            counters: counters_values(random),
        },
        _ => Write::Append {
            limit,
            length,
            sample: spoiled(random, sample),
        },
    };
    WriteCall { buffer, write }
}

/// Mostly the number itself.
fn near(random: &mut Random, number: usize) -> usize {
    match random.below(16) {
        0 => number.saturating_sub(1 + random.below(4)),
        1 => number + 1 + random.below(60),
        2 => [0, usize::MAX, random.word() as usize][random.below(3)],
        _ => number,
    }
}

/// Mostly one of the numbers 1 to `greatest`.
fn choice(random: &mut Random, greatest: u32) -> u32 {
    match random.below(8) {
        0 => [0, greatest + 1, random.word()][random.below(3)],
        _ => 1 + random.below(greatest as usize) as u32,
    }
}

/// An address, mostly of a type in the grammar; all 16 octets are set.
pub fn given_address(random: &mut Random) -> GivenAddress {
    GivenAddress {
        address_type: choice(random, 2),
        octets: random.array(),
    }
}

/// Mostly the octets themselves, otherwise cut, longer, doubled or changed.
fn spoiled(random: &mut Random, mut octets: Vec<u8>) -> Vec<u8> {
    match random.below(16) {
        0 => octets.truncate(random.below(octets.len())),
        1 => {
            let more = 1 + random.below(8);
            octets.extend(random.octets(more));
        }
        2 => octets = octets.repeat(2),
        3 => octets = scramble(random, octets),
        _ => {}
    }
    octets
}

/// Mostly the number of entries itself.
fn count_near(random: &mut Random, number: usize) -> u32 {
    let number = number as u32;
    match random.below(12) {
        0 => number.wrapping_add(1),
        1 => number.wrapping_sub(1),
        2 => random.word(),
        _ => number,
    }
}

/// The values of a flow sample, mostly right.
pub fn flow_values(random: &mut Random) -> FlowValues {
    let packet = encode_packet_data(&parts::packet_data(random)).octets;
    let count = random.below(4);
    let entries = (0..count).map(|_| parts::extended_data(random));
    let octets: Vec<u8> = entries
        .flat_map(|own| encode_extended_data(&own).octets)
        .collect();
    FlowValues {
        words: std::array::from_fn(|_| random.word()),
        packet_octets: spoiled(random, packet),
        entries: count_near(random, count),
        entry_octets: spoiled(random, octets),
    }
}

/// The values of a counter sample, mostly right.
pub fn counters_values(random: &mut Random) -> CountersValues {
    let version = choice(random, 7);
    let known = CountersVersion::from_number(version).unwrap_or(CountersVersion::Vlan);
    let mut numbers = match parts::counters(random, known) {
        Sample::Counters(own) => own.counters,
        Sample::Flow(_) => Vec::new(),
    };
    match random.below(12) {
        0 => numbers.push(0),
        1 => drop(numbers.pop()),
        2 | 3 => {
            let last = numbers.len().saturating_sub(1);
            let place = [0, last, random.below(numbers.len())][random.below(3)];
            if let Some(number) = numbers.get_mut(place) {
                *number = (1 << 32) - random.below(2) as u64;
            }
        }
        _ => {}
    }
    CountersValues {
        sequence: random.word(),
        source: random.word(),
        interval: random.word(),
        version,
        numbers,
    }
}

/// A call of a writer of one form, with a buffer about as long as the form.
fn form_call(random: &mut Random) -> WriteCall {
    let write = match random.below(6) {
        0 => Write::Flow(flow_values(random)),
        1 => Write::Counters(counters_values(random)),
        2 | 3 => packet_write(random),
        _ => entry_write(random),
    };
    // What the values call for, where they are in the grammar.
    let mut enough = vec![0; 4096];
    let answer = write.carry_out(&mut enough);
    let length = match (answer, random.below(8)) {
        (Ok(needed), 0) => needed.saturating_sub(1),
        (Ok(needed), 1) => random.below(needed + 1),
        (Ok(needed), 2..=4) => needed,
        (Ok(needed), _) => needed + random.below(50),
        // Too short for any form, or for some, or long enough.
        (Err(_), 0..=2) => random.below(12),
        (Err(_), 3 | 4) => random.below(100),
        (Err(_), _) => 400,
    };
    WriteCall {
        buffer: random_fill(random, length),
        write,
    }
}

/// Packet data of any kind, mostly with right values.
fn packet_write(random: &mut Random) -> Write {
    match parts::packet_data(random) {
        PacketData::Ipv4(own) => Write::Ipv4(own),
        PacketData::Ipv6(own) => Write::Ipv6(own),
        PacketData::Header(own) => {
            let length = match random.below(3) {
                0 => 250 + random.below(12),
                _ => own.header.len(),
            };
            Write::Header {
                protocol: choice(random, 13),
                frame_length: own.frame_length,
                header: random.octets(length),
            }
        }
    }
}

/// Extended data of any kind or a path segment, mostly with right values.
fn entry_write(random: &mut Random) -> Write {
    if random.below(6) == 0 {
        let length = random.below(6);
        return Write::Segment {
            kind: choice(random, 2),
            numbers: random.words(length),
        };
    }
    match parts::extended_data(random) {
        ExtendedData::Switch(own) => Write::Switch(own),
        ExtendedData::Router(own) => Write::Router {
            nexthop: given_address(random),
            src_mask: own.src_mask,
            dst_mask: own.dst_mask,
        },
        ExtendedData::Gateway(own) => gateway_write(random, own),
        ExtendedData::User(own) => Write::User {
            src_user: own.src_user,
            dst_user: own.dst_user,
        },
        ExtendedData::Url(own) => Write::Url {
            direction: choice(random, 2),
            url: own.url,
        },
    }
}

/// A gateway whose path segments come as octets and a count.
fn gateway_write(random: &mut Random, own: ExtendedGateway) -> Write {
    let octets = |segment: &AsPath| {
        let numbers = segment.numbers();
        let head = octets_of(&[segment.type_number(), numbers.len() as u32]);
        [head, octets_of(numbers)].concat()
    };
    let segments: Vec<u8> = own.dst_as_path.iter().flat_map(octets).collect();
    Write::Gateway {
        words: [own.r#as, own.src_as, own.src_peer_as],
        segments: count_near(random, own.dst_as_path.len()),
        segment_octets: spoiled(random, segments),
        communities: own.communities,
        local_preference: own.localpref,
    }
}
