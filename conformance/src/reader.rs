//! The reader: octets to a datagram's values and places, or a refusal.

use crate::cursor::{Cursor, Span};
use crate::grammar;
use crate::refusal::{Fault, Refusal};
use crate::sample_reader::read_sample;
use crate::value::{Address, Datagram, Sample};

/// An accepted datagram: its values and where they lie.
#[derive(Clone, Debug, PartialEq, Eq)]
pub struct Reading {
    /// The values.
    pub datagram: Datagram,
    /// The offset behind the samples' count word.
    pub first_sample: usize,
    /// For each sample of the datagram its places.
    pub places: Vec<SamplePlaces>,
}

/// Where a sample and its strings lie.
#[derive(Clone, Debug, PartialEq, Eq)]
pub struct SamplePlaces {
    /// From the sample's type word to its end.
    pub sample: Span,
    /// The sample's strings in their order, without padding.
    pub strings: Vec<Span>,
}

/// Reads one datagram.
pub fn read(octets: &[u8]) -> Result<Reading, Refusal> {
    if octets.len() > grammar::MAX_DATAGRAM_SIZE {
        return Err(Refusal::new(Fault::TooLong, 0));
    }
    let mut cursor = Cursor::new(octets);
    let reading = read_datagram(&mut cursor)?;
    if !cursor.at_end() {
        return Err(Refusal::new(Fault::Trailing, cursor.offset()));
    }
    Ok(reading)
}

/// Reads from the version to the end of the last sample.
fn read_datagram(cursor: &mut Cursor) -> Result<Reading, Refusal> {
    cursor.chosen(Fault::Version, |version| {
        (version == grammar::VERSION4).then_some(())
    })?;
    let agent_address = read_address(cursor)?;
    let sequence_number = cursor.word()?;
    let uptime = cursor.word()?;
    let first_sample = cursor.offset() + 4;
    let placed = cursor.list(read_placed_sample)?;
    let (samples, places) = placed.into_iter().unzip();
    Ok(Reading {
        datagram: Datagram {
            agent_address,
            sequence_number,
            uptime,
            samples,
        },
        first_sample,
        places,
    })
}

/// Reads one sample and notes its places.
fn read_placed_sample(cursor: &mut Cursor) -> Result<(Sample, SamplePlaces), Refusal> {
    let offset = cursor.offset();
    let value = read_sample(cursor)?;
    let sample = Span {
        offset,
        length: cursor.offset() - offset,
    };
    Ok((
        value,
        SamplePlaces {
            sample,
            strings: cursor.take_strings(),
        },
    ))
}

/// Reads an address: its type word, then 4 or 16 octets.
pub fn read_address(cursor: &mut Cursor) -> Result<Address, Refusal> {
    let address_type = cursor.chosen(Fault::AddressType, |number| match number {
        grammar::IP_V4 | grammar::IP_V6 => Some(number),
        _ => None,
    })?;
    if address_type == grammar::IP_V4 {
        Ok(Address::IpV4(cursor.array()?))
    } else {
        Ok(Address::IpV6(cursor.array()?))
    }
}
