//! The writer: datagrams built up in a lent buffer, and every form of the
//! grammar written from values into a lent buffer.
//!
//! Each function gives the octets that the buffer now holds from its
//! beginning, or the number of a refusal. A refusal leaves the buffer as it
//! was; octets behind those written stay.

use crate::cases::octets_of;
use crate::encoder::encode;
pub use crate::form_writer::*;
use crate::given::{amount, are_exactly, demand};
pub use crate::given::{GivenAddress, GivenCounters, GivenFlow, NOT_IN_GRAMMAR};
use crate::grammar;
use crate::reader::read;
use crate::sample_reader::read_sample;
use crate::value::Datagram;

/// The limit is outside 36 to 65,507, or the buffer is shorter than it.
pub const BAD_LIMIT: u32 = 21;
/// The datagram so far is not accepted, or is longer than the limit.
pub const BAD_DATAGRAM: u32 = 23;

/// The least limit: a datagram of an IPv6 agent without samples.
pub const LEAST_LIMIT: usize = 36;

/// Tests limit and buffer (21).
fn test_limit(buffer: &[u8], limit: usize) -> Result<(), u32> {
    let limits = LEAST_LIMIT..=grammar::MAX_DATAGRAM_SIZE;
    let fits = limits.contains(&limit) && buffer.len() >= limit;
    fits.then_some(()).ok_or(BAD_LIMIT)
}

/// Writes a datagram without samples: 21, then 22 for the agent's type.
pub fn start(
    buffer: &mut [u8],
    limit: usize,
    agent: &GivenAddress,
    sequence: u32,
    uptime: u32,
) -> Result<usize, u32> {
    test_limit(buffer, limit)?;
    let datagram = Datagram {
        agent_address: agent.address().ok_or(NOT_IN_GRAMMAR)?,
        sequence_number: sequence,
        uptime,
        samples: Vec::new(),
    };
    put(buffer, &encode(&datagram).octets)
}

/// The datagram so far: how long it is, and where its count word lies.
struct SoFar {
    length: usize,
    count_place: usize,
    count: u32,
}

/// Tests limit and buffer (21), then the datagram so far (23).
fn so_far(buffer: &[u8], limit: usize, length: usize) -> Result<SoFar, u32> {
    test_limit(buffer, limit)?;
    let octets = buffer.get(..length).filter(|_| length <= limit);
    let reading = read(octets.ok_or(BAD_DATAGRAM)?).map_err(|_| BAD_DATAGRAM)?;
    Ok(SoFar {
        length,
        count_place: reading.first_sample.saturating_sub(4),
        // Every sample has 48 octets or more, so the count is far from 2^32.
        count: amount(reading.datagram.samples.len())?,
    })
}

/// Puts one sample behind the datagram (20) and counts it.
fn add(buffer: &mut [u8], limit: usize, so_far: &SoFar, sample: &[u8]) -> Result<usize, u32> {
    let tail = buffer.get_mut(so_far.length..limit).unwrap_or_default();
    let added = put(tail, sample)?;
    let count_word = buffer.get_mut(so_far.count_place..).unwrap_or_default();
    put(count_word, &octets_of(&[so_far.count.saturating_add(1)]))?;
    Ok(so_far.length + added)
}

/// Appends one sample given as octets to the datagram of this length: 21, 23,
/// 22, 20. Gives the datagram's new length.
pub fn append(buffer: &mut [u8], limit: usize, length: usize, sample: &[u8]) -> Result<usize, u32> {
    let so_far = so_far(buffer, limit, length)?;
    demand(are_exactly(sample, 1, read_sample))?;
    add(buffer, limit, &so_far, sample)
}

/// Appends a flow sample given as values: 21, 23, 22, 20.
pub fn append_flow(
    buffer: &mut [u8],
    limit: usize,
    length: usize,
    flow: &GivenFlow,
) -> Result<usize, u32> {
    let so_far = so_far(buffer, limit, length)?;
    add(buffer, limit, &so_far, &flow.octets()?)
}

/// Appends a counter sample given as values: 21, 23, 22, 20.
pub fn append_counters(
    buffer: &mut [u8],
    limit: usize,
    length: usize,
    counters: &GivenCounters,
) -> Result<usize, u32> {
    let so_far = so_far(buffer, limit, length)?;
    add(buffer, limit, &so_far, &counters.octets()?)
}
