//! Appends of samples from values: what is given, and how both programs carry it out.

use conformance::sample_reader::read_packet_data;
use conformance::value::{PacketData, SampledHeader};
use conformance::write_calls::{CountersValues, FlowValues};
use conformance::writer::{self, NOT_IN_GRAMMAR};

use crate::calls;
use crate::item_numbers::{ipv4_words, ipv6_words, item_at};

/// Words of a flow sample, its count of extended entries included.
const FLOW_WORDS: usize = 8;

/// More octets than any packet data have.
const PACKET_ROOM: usize = 300;

/// An append to the datagram that a buffer begins with.
#[derive(Clone, Debug)]
pub struct Append {
    /// The most octets of the datagram.
    pub limit: usize,
    /// The octets of the datagram so far.
    pub length: usize,
    /// The sample.
    pub sample: Given,
}

/// A sample's values, right or wrong.
#[derive(Clone, Debug)]
pub enum Given {
    /// Of a flow sample.
    Flow(GivenFlow),
    /// Of a counter sample.
    Counters(CountersValues),
}

/// The values of a flow sample, right or wrong.
#[derive(Clone, Debug)]
pub struct GivenFlow {
    /// Seven words and the count of extended entries; or another number of words, which is wrong.
    pub words: Vec<u32>,
    /// What is known of the packet; a header's values may be wrong.
    pub packet: PacketData,
    /// The words of IPv4 or IPv6 data; or another number of words, which is wrong. Of a header
    /// there are none.
    pub packet_words: Vec<u32>,
    /// What should be the extended entries.
    pub entry_octets: Vec<u8>,
}

impl GivenFlow {
    /// The values in as many words as they have.
    pub fn new(words: [u32; 7], packet: PacketData, entries: u32, entry_octets: Vec<u8>) -> Self {
        let mut words = words.to_vec();
        words.push(entries);
        GivenFlow {
            words,
            packet_words: packet_words(&packet),
            packet,
            entry_octets,
        }
    }

    /// The second program's values, if the packet octets are exactly one packet data.
    pub fn of_octets(own: &FlowValues) -> Option<GivenFlow> {
        let packet = item_at(&own.packet_octets, 0, read_packet_data).ok()?;
        let whole = packet.next == own.packet_octets.len();
        let entry_octets = own.entry_octets.clone();
        whole.then(|| GivenFlow::new(own.words, packet.value, own.entries, entry_octets))
    }

    /// The values as the second program takes them, if they come in as many words as they have.
    fn values(&self) -> Option<FlowValues> {
        let given = self.packet_words.len() == packet_words(&self.packet).len();
        let words = <[u32; FLOW_WORDS]>::try_from(self.words.as_slice());
        let [a, b, c, d, e, f, g, entries] = words.ok().filter(|_| given)?;
        Some(FlowValues {
            words: [a, b, c, d, e, f, g],
            packet_octets: packet_octets(&self.packet).ok()?,
            entries,
            entry_octets: self.entry_octets.clone(),
        })
    }
}

/// The words that packet data are given by.
fn packet_words(packet: &PacketData) -> Vec<u32> {
    match packet {
        PacketData::Header(_) => Vec::new(),
        PacketData::Ipv4(own) => ipv4_words(own),
        PacketData::Ipv6(own) => ipv6_words(own),
    }
}

/// Packet data that the second program writes from values, or its refusal.
fn packet_octets(packet: &PacketData) -> Result<Vec<u8>, u32> {
    let mut buffer = vec![0; PACKET_ROOM];
    let length = match packet {
        PacketData::Header(own) => {
            writer::write_header(&mut buffer, own.protocol, own.frame_length, &own.header)
        }
        PacketData::Ipv4(own) => writer::write_ipv4(&mut buffer, own),
        PacketData::Ipv6(own) => writer::write_ipv6(&mut buffer, own),
    };
    buffer.truncate(length?);
    Ok(buffer)
}

impl Given {
    /// The sample's octets by the second program, or its refusal.
    pub fn octets(&self) -> Result<Vec<u8>, u32> {
        match self {
            Given::Flow(flow) => flow.values().ok_or(NOT_IN_GRAMMAR)?.given().octets(),
            Given::Counters(own) => own.given().octets(),
        }
    }

    /// The library's function for the sample.
    pub fn function(&self) -> &'static str {
        match self {
            Given::Counters(_) => "sflow4_append_counters",
            Given::Flow(flow) => match flow.packet {
                PacketData::Header(_) => "sflow4_append_header",
                PacketData::Ipv4(_) => "sflow4_append_ipv4",
                PacketData::Ipv6(_) => "sflow4_append_ipv6",
            },
        }
    }
}

impl Append {
    /// The second program's answer. What is not in the grammar, or comes in another number of words
    /// than it has, is no sample, as no octets are none: it is refused behind what is tested before.
    pub fn second(&self, buffer: &mut [u8]) -> Result<usize, u32> {
        let (limit, length) = (self.limit, self.length);
        match &self.sample {
            Given::Counters(own) => writer::append_counters(buffer, limit, length, &own.given()),
            Given::Flow(flow) => match flow.values() {
                Some(values) => writer::append_flow(buffer, limit, length, &values.given()),
                None => writer::append(buffer, limit, length, &[]),
            },
        }
    }

    /// Calls the library's function.
    pub fn ours(&self, buffer: &mut [u8], out: &mut [u64]) -> u32 {
        let (limit, length) = (self.limit, self.length);
        let flow = match &self.sample {
            Given::Flow(flow) => flow,
            Given::Counters(own) => {
                let words = [own.sequence, own.source, own.interval, own.version];
                return calls::append_counters(buffer, limit, length, words, &own.numbers, out);
            }
        };
        let (words, packet, entries) = (&flow.words, &flow.packet_words, &flow.entry_octets);
        match &flow.packet {
            PacketData::Header(own) => {
                let header = header_parts(own);
                calls::append_header(buffer, limit, length, words, header, entries, out)
            }
            PacketData::Ipv4(_) => {
                calls::append_ipv4(buffer, limit, length, words, packet, entries, out)
            }
            PacketData::Ipv6(_) => {
                calls::append_ipv6(buffer, limit, length, words, packet, entries, out)
            }
        }
    }
}

fn header_parts(own: &SampledHeader) -> (u32, u32, &[u8]) {
    (own.protocol, own.frame_length, &own.header)
}
