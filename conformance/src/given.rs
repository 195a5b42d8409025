//! Values as they are given to the writer, right or wrong, and what the
//! grammar demands of them.

use crate::cases::octets_of;
use crate::counters::{CountersVersion, Field, Width};
use crate::cursor::Cursor;
use crate::encoder::encode_sample;
use crate::grammar;
use crate::sample_reader::*;
use crate::value::*;

/// The octets are not exactly one sample, or a value is not in the grammar.
pub const NOT_IN_GRAMMAR: u32 = 22;

/// Refuses with 22 where the values are not in the grammar.
pub fn demand(in_grammar: bool) -> Result<(), u32> {
    in_grammar.then_some(()).ok_or(NOT_IN_GRAMMAR)
}

/// A number of octets or entries as a word; there are none above 2^32 - 1 in
/// the grammar.
pub fn amount(number: usize) -> Result<u32, u32> {
    u32::try_from(number).map_err(|_| NOT_IN_GRAMMAR)
}

/// Whether the octets are exactly so many entries.
pub fn are_exactly<T>(octets: &[u8], count: u32, entry: Form<T>) -> bool {
    let mut cursor = Cursor::new(octets);
    (0..count).all(|_| entry(&mut cursor).is_ok()) && cursor.at_end()
}

/// An address as it is given to a writer; its type may be wrong.
#[derive(Clone, Copy, Debug, PartialEq, Eq)]
pub struct GivenAddress {
    /// 1 for IPv4, 2 for IPv6.
    pub address_type: u32,
    /// For type 1 the first 4 count, for type 2 all.
    pub octets: [u8; 16],
}

impl GivenAddress {
    /// The address, if its type is in the grammar.
    pub fn address(&self) -> Option<Address> {
        let [a, b, c, d, ..] = self.octets;
        match self.address_type {
            grammar::IP_V4 => Some(Address::IpV4([a, b, c, d])),
            grammar::IP_V6 => Some(Address::IpV6(self.octets)),
            _ => None,
        }
    }
}

impl From<Address> for GivenAddress {
    fn from(address: Address) -> GivenAddress {
        let mut octets = [0; 16];
        match address {
            Address::IpV4(own) => octets.iter_mut().zip(own).for_each(|(to, from)| *to = from),
            Address::IpV6(own) => octets = own,
        }
        GivenAddress {
            address_type: address.type_number(),
            octets,
        }
    }
}

/// The values of a flow sample as they are given to a writer.
#[derive(Clone, Copy, Debug, PartialEq, Eq)]
pub struct GivenFlow<'a> {
    /// Sequence number, source id, sampling rate, sample pool, drops, input,
    /// output.
    pub words: [u32; 7],
    /// Exactly one packet data, from its type word on.
    pub packet_octets: &'a [u8],
    /// How many entries of extended data there are.
    pub entries: u32,
    /// Exactly so many entries, each from its type word on.
    pub entry_octets: &'a [u8],
}

impl GivenFlow<'_> {
    /// The sample's octets (22).
    pub fn octets(&self) -> Result<Vec<u8>, u32> {
        demand(are_exactly(self.packet_octets, 1, read_packet_data))?;
        demand(are_exactly(
            self.entry_octets,
            self.entries,
            read_extended_data,
        ))?;
        Ok([
            &octets_of(&[grammar::FLOWSAMPLE]),
            &octets_of(&self.words),
            self.packet_octets,
            &octets_of(&[self.entries]),
            self.entry_octets,
        ]
        .concat())
    }
}

/// The values of a counter sample as they are given to a writer.
#[derive(Clone, Copy, Debug, PartialEq, Eq)]
pub struct GivenCounters<'a> {
    /// The sample's sequence number.
    pub sequence: u32,
    /// Its source id.
    pub source: u32,
    /// The sampling interval.
    pub interval: u32,
    /// 1 to 7.
    pub version: u32,
    /// The body's counters in the RFC's order.
    pub numbers: &'a [u64],
}

impl GivenCounters<'_> {
    /// The sample's octets (22).
    pub fn octets(&self) -> Result<Vec<u8>, u32> {
        let version = CountersVersion::from_number(self.version).ok_or(NOT_IN_GRAMMAR)?;
        demand(self.numbers.len() == version.fields().count())?;
        let fits = |(field, &number): (Field, &u64)| match field.width {
            Width::Word => u32::try_from(number).is_ok(),
            Width::Hyper => true,
        };
        demand(version.fields().zip(self.numbers).all(fits))?;
        let sample = Sample::Counters(CountersSample {
            sequence_number: self.sequence,
            source_id: self.source,
            sampling_interval: self.interval,
            version,
            counters: self.numbers.to_vec(),
        });
        Ok(encode_sample(&sample).octets)
    }
}
