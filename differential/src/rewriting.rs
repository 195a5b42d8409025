//! Accepted datagrams written again by the library from what the library reads of them: each sample
//! is appended from its values.

use conformance::reader::Reading;

use crate::answers::FILL_OCTET;
use crate::calls;
use crate::case::Case;
use crate::forms::{done, entry_form, narrowed, octets_at};
use crate::tally::{Tally, Told};
use crate::text::from_difference;
use crate::writing::BEHIND;

/// The least limit.
const LEAST_LIMIT: usize = 36;

/// There is no room for a sample.
const NO_ROOM: u32 = 20;

/// Writes an accepted datagram again, with a limit that it fits and with one that it may not fit,
/// and compares the octets.
pub fn compare_rewriting(tally: &mut Tally, octets: &[u8], reading: &Reading) {
    let whole = octets.len().max(LEAST_LIMIT);
    let less = LEAST_LIMIT + tally.inputs() as usize * 7 % (whole + 1 - LEAST_LIMIT);
    for limit in [whole, less] {
        compare_within(tally, octets, reading, limit);
    }
}

/// Compares with a limit: the same octets where they fit, otherwise the samples before the first
/// that does not, and a refusal for it.
pub fn compare_within(tally: &mut Tally, octets: &[u8], reading: &Reading, limit: usize) {
    let (second, expected) = fitting(octets, reading, limit);
    let mut buffer = vec![FILL_OCTET; limit + BEHIND];
    let mut length = 0;
    let ours = write_again(octets, &mut buffer[..limit], &mut length);
    let front = buffer.get(..expected.len()).unwrap_or_default();
    let behind = buffer.get(expected.len()..).unwrap_or_default();
    let stays = behind.iter().all(|&octet| octet == FILL_OCTET);
    let same = ours == second && length == expected.len() && front == expected && stays;
    tally.compare(same, "a datagram written again", || Told {
        input: Case::new("rewriting")
            .octets("octets", octets)
            .number("limit", limit),
        ours: format!(
            "{ours:?} length {length} {}",
            from_difference(front, &expected)
        ),
        second: format!("{second:?} {}", from_difference(&expected, front)),
    });
}

/// What the datagram has of samples within a limit, and whether that is all of them.
fn fitting(octets: &[u8], reading: &Reading, limit: usize) -> (Result<(), u32>, Vec<u8>) {
    let ends = reading.places.iter().map(|own| own.sample);
    let ends = ends.map(|own| own.offset + own.length);
    let fitting: Vec<usize> = ends.take_while(|&end| end <= limit).collect();
    let length = fitting.last().copied().unwrap_or(reading.first_sample);
    let mut expected = octets[..length].to_vec();
    let count = (fitting.len() as u32).to_be_bytes();
    expected[reading.first_sample - count.len()..reading.first_sample].copy_from_slice(&count);
    match fitting.len() == reading.places.len() {
        true => (Ok(()), expected),
        false => (Err(NO_ROOM), expected),
    }
}

/// Reads a datagram and writes it again to a buffer, within a limit that is its length; the length
/// is that of the datagram so far, also where a call is refused.
fn write_again(octets: &[u8], buffer: &mut [u8], length: &mut usize) -> Result<(), u32> {
    let (limit, mut head, mut out) = (buffer.len(), [0; 9], [0]);
    done(calls::read(octets, &mut head))?;
    let [agent_type, a, b, c, d, sequence, uptime, count, first] = head;
    let agent = (agent_type as u32, [a, b, c, d].map(|word| word as u32));
    let (sequence, uptime) = (sequence as u32, uptime as u32);
    done(calls::start(
        buffer, limit, agent, sequence, uptime, &mut out,
    ))?;
    *length = out[0] as usize;
    let mut at = first;
    for _ in 0..count {
        let mut sample = [0; 45];
        done(calls::sample(octets, at as usize, &mut sample))?;
        done(append_again(octets, &sample, buffer, *length, &mut out)?)?;
        *length = out[0] as usize;
        at = sample[1].wrapping_add(sample[2]);
    }
    Ok(())
}

/// Appends the sample that an array of sflow4_sample tells of; gives the append's number.
fn append_again(
    octets: &[u8],
    sample: &[u64; 45],
    buffer: &mut [u8],
    length: usize,
    out: &mut [u64],
) -> Result<u32, u32> {
    let limit = buffer.len();
    if sample[0] == 2 {
        let words = [3, 4, 5, 6].map(|place: usize| sample[place] as u32);
        let numbers = sample.get(8..8 + sample[7] as usize).unwrap_or_default();
        return Ok(calls::append_counters(
            buffer, limit, length, words, numbers, out,
        ));
    }
    let mut words = narrowed(&sample[3..10]);
    words.push(sample[11] as u32);
    let entries = entries_again(octets, sample[11], sample[12])?;
    Ok(match sample[10] {
        2 => {
            let packet = narrowed(&sample[13..21]);
            calls::append_ipv4(buffer, limit, length, &words, &packet, &entries, out)
        }
        3 => {
            let packet = narrowed(&sample[13..27]);
            calls::append_ipv6(buffer, limit, length, &words, &packet, &entries, out)
        }
        _ => {
            let own = octets_at(octets, sample[15], sample[16])?;
            let header = (sample[13] as u32, sample[14] as u32, own);
            calls::append_header(buffer, limit, length, &words, header, &entries, out)
        }
    })
}

/// So many extended entries from an offset on, each written from its values.
fn entries_again(octets: &[u8], count: u64, first: u64) -> Result<Vec<u8>, u32> {
    let mut all = Vec::new();
    let mut at = first;
    for _ in 0..count {
        let mut entry = [0; 10];
        done(calls::extended(octets, at as usize, &mut entry))?;
        all.extend(entry_form(octets, &entry)?.octets()?);
        at = entry[1];
    }
    Ok(all)
}
