//! Datagrams read.
use crate::address;
use crate::calls;
use crate::refusal::Refusal;
use crate::sample::{read_sample, Sample};
use std::net::IpAddr;

/// The head of a well-formed datagram, and the way to its samples.
#[derive(Clone, Debug, PartialEq, Eq)]
pub struct Head<'a> {
    octets: &'a [u8],
    first: usize,
    /// the agent that sent it
    pub agent: IpAddr,
    /// the datagram's sequence number
    pub sequence_number: u32,
    /// the agent's uptime in milliseconds
    pub uptime: u32,
    /// how many samples it has
    pub sample_count: u32,
}

impl<'a> Head<'a> {
    /// The samples, in their order. There are `sample_count` of them: the datagram was read to its
    /// end before.
    pub fn samples(&self) -> Samples<'a> {
        Samples {
            octets: self.octets,
            at: self.first,
            left: self.sample_count,
        }
    }
}

/// Reads a whole datagram: its head if all of it is well formed, else the first thing that is
/// wrong.
///
/// ```
/// use troutgable::{read, Reason};
///
/// let mut octets = vec![0, 0, 0, 4, 0, 0, 0, 1, 10, 0, 0, 7, 0, 0, 0, 1, 0, 0, 3, 232, 0, 0, 0, 0];
/// let head = read(&octets)?;
/// assert_eq!(head.agent.to_string(), "10.0.0.7");
/// assert_eq!((head.sequence_number, head.uptime, head.samples().count()), (1, 1000, 0));
///
/// octets.push(0);
/// let refusal = read(&octets).unwrap_err();
/// assert_eq!((refusal.reason, refusal.place), (Reason::TrailingOctets, 24));
/// assert_eq!(refusal.to_string(), "refused 13 at 24: octets follow the last sample");
/// # Ok::<(), troutgable::Refusal>(())
/// ```
pub fn read(octets: &[u8]) -> Result<Head<'_>, Refusal> {
    let mut out = [0; 9];
    let number = calls::read(octets, &mut out);
    let [kind, a, b, c, d, sequence_number, uptime, count, first] = out;
    if number != 0 {
        return Err(Refusal::of(number, kind));
    }
    Ok(Head {
        octets,
        first: first as usize,
        agent: address::of(kind, [a, b, c, d]),
        sequence_number: sequence_number as u32,
        uptime: uptime as u32,
        sample_count: count as u32,
    })
}

/// The samples of a datagram, in their order.
#[derive(Clone, Debug)]
pub struct Samples<'a> {
    octets: &'a [u8],
    at: usize,
    left: u32,
}

impl<'a> Iterator for Samples<'a> {
    type Item = Sample<'a>;

    fn next(&mut self) -> Option<Sample<'a>> {
        self.left = self.left.checked_sub(1)?;
        let Ok(sample) = read_sample(self.octets, self.at) else {
            self.left = 0;
            return None;
        };
        self.at = sample.offset().saturating_add(sample.length());
        Some(sample)
    }

    fn size_hint(&self) -> (usize, Option<usize>) {
        (0, Some(self.left as usize))
    }
}
