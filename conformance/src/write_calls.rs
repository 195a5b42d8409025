//! Calls of the writer's functions as values, each with the buffer it is
//! lent.

use crate::value::*;
use crate::writer::*;

/// A call and the buffer that it is made on.
#[derive(Clone, Debug, PartialEq, Eq)]
pub struct WriteCall {
    /// What the buffer holds before the call.
    pub buffer: Vec<u8>,
    /// Which function is called with which values.
    pub write: Write,
}

impl WriteCall {
    /// The answer, and the buffer afterwards.
    pub fn carried_out(&self) -> (Result<usize, u32>, Vec<u8>) {
        let mut buffer = self.buffer.clone();
        let answer = self.write.carry_out(&mut buffer);
        (answer, buffer)
    }
}

/// A function of the writer with its values.
#[derive(Clone, Debug, PartialEq, Eq)]
pub enum Write {
    /// `start`.
    Start {
        /// The most octets of the datagram.
        limit: usize,
        /// The agent's address.
        agent: GivenAddress,
        /// The datagram's sequence number.
        sequence: u32,
        /// The uptime.
        uptime: u32,
    },
    /// `append`.
    Append {
        /// The most octets of the datagram.
        limit: usize,
        /// The octets of the datagram so far.
        length: usize,
        /// What should be one sample.
        sample: Vec<u8>,
    },
    /// `append_flow`.
    AppendFlow {
        /// The most octets of the datagram.
        limit: usize,
        /// The octets of the datagram so far.
        length: usize,
        /// The sample's values.
        flow: FlowValues,
    },
    /// `append_counters`.
    AppendCounters {
        /// The most octets of the datagram.
        limit: usize,
        /// The octets of the datagram so far.
        length: usize,
        /// The sample's values.
        counters: CountersValues,
    },
    /// `write_flow`.
    Flow(FlowValues),
    /// `write_counters`.
    Counters(CountersValues),
    /// `write_header`.
    Header {
        /// The header protocol.
        protocol: u32,
        /// The length of the packet before sampling.
        frame_length: u32,
        /// The sampled octets.
        header: Vec<u8>,
    },
    /// `write_ipv4`.
    Ipv4(SampledIpv4),
    /// `write_ipv6`.
    Ipv6(SampledIpv6),
    /// `write_switch`.
    Switch(ExtendedSwitch),
    /// `write_router`.
    Router {
        /// The address of the next router.
        nexthop: GivenAddress,
        /// The bits of the source's prefix mask.
        src_mask: u32,
        /// The bits of the destination's prefix mask.
        dst_mask: u32,
    },
    /// `write_gateway`.
    Gateway {
        /// The autonomous systems of router, source and source peer.
        words: [u32; 3],
        /// How many path segments there should be.
        segments: u32,
        /// What should be the path segments.
        segment_octets: Vec<u8>,
        /// The communities of the route.
        communities: Vec<u32>,
        /// The route's local preference.
        local_preference: u32,
    },
    /// `write_segment`.
    Segment {
        /// The segment's type.
        kind: u32,
        /// Its autonomous systems.
        numbers: Vec<u32>,
    },
    /// `write_user`.
    User {
        /// The user at the source.
        src_user: Vec<u8>,
        /// The user at the destination.
        dst_user: Vec<u8>,
    },
    /// `write_url`.
    Url {
        /// The URL's direction.
        direction: u32,
        /// The text.
        url: Vec<u8>,
    },
}

/// The values of a flow sample, right or wrong, with octets of their own.
#[derive(Clone, Debug, PartialEq, Eq)]
pub struct FlowValues {
    /// Sequence number, source id, sampling rate, sample pool, drops, input,
    /// output.
    pub words: [u32; 7],
    /// What should be one packet data.
    pub packet_octets: Vec<u8>,
    /// How many entries there should be.
    pub entries: u32,
    /// What should be the entries.
    pub entry_octets: Vec<u8>,
}

impl FlowValues {
    /// The values as they are given to a writer.
    pub fn given(&self) -> GivenFlow<'_> {
        GivenFlow {
            words: self.words,
            packet_octets: &self.packet_octets,
            entries: self.entries,
            entry_octets: &self.entry_octets,
        }
    }
}

/// The values of a counter sample, right or wrong, with numbers of their own.
#[derive(Clone, Debug, PartialEq, Eq)]
pub struct CountersValues {
    /// The sample's sequence number.
    pub sequence: u32,
    /// Its source id.
    pub source: u32,
    /// The sampling interval.
    pub interval: u32,
    /// The version of the body.
    pub version: u32,
    /// The body's counters.
    pub numbers: Vec<u64>,
}

impl CountersValues {
    /// The values as they are given to a writer.
    pub fn given(&self) -> GivenCounters<'_> {
        GivenCounters {
            sequence: self.sequence,
            source: self.source,
            interval: self.interval,
            version: self.version,
            numbers: &self.numbers,
        }
    }
}

/// A sample to be appended: its octets, or its values.
#[derive(Clone, Debug, PartialEq, Eq)]
pub enum Appended {
    /// What should be the sample's octets.
    Octets(Vec<u8>),
    /// The values of a flow sample.
    Flow(FlowValues),
    /// The values of a counter sample.
    Counters(CountersValues),
}

impl Appended {
    /// The call that appends it to a datagram of this length.
    pub fn write(self, limit: usize, length: usize) -> Write {
        match self {
            Appended::Octets(sample) => Write::Append {
                limit,
                length,
                sample,
            },
            Appended::Flow(flow) => Write::AppendFlow {
                limit,
                length,
                flow,
            },
            Appended::Counters(counters) => Write::AppendCounters {
                limit,
                length,
                counters,
            },
        }
    }
}

impl Write {
    /// Calls the function on this buffer.
    pub fn carry_out(&self, buffer: &mut [u8]) -> Result<usize, u32> {
        match self {
            Write::Start {
                limit,
                agent,
                sequence,
                uptime,
            } => start(buffer, *limit, agent, *sequence, *uptime),
            Write::Append {
                limit,
                length,
                sample,
            } => append(buffer, *limit, *length, sample),
            Write::AppendFlow {
                limit,
                length,
                flow,
            } => append_flow(buffer, *limit, *length, &flow.given()),
            Write::AppendCounters {
                limit,
                length,
                counters,
            } => append_counters(buffer, *limit, *length, &counters.given()),
            _ => self.write_form(buffer),
        }
    }

    /// Calls a writer of samples or packet data.
    fn write_form(&self, buffer: &mut [u8]) -> Result<usize, u32> {
        match self {
            Write::Flow(own) => write_flow(
                buffer,
                own.words,
                &own.packet_octets,
                own.entries,
                &own.entry_octets,
            ),
            Write::Counters(own) => write_counters(
                buffer,
                own.sequence,
                own.source,
                own.interval,
                own.version,
                &own.numbers,
            ),
            Write::Header {
                protocol,
                frame_length,
                header,
            } => write_header(buffer, *protocol, *frame_length, header),
            Write::Ipv4(own) => write_ipv4(buffer, own),
            Write::Ipv6(own) => write_ipv6(buffer, own),
            _ => self.write_entry(buffer),
        }
    }

    /// Calls a writer of extended data or of a path segment.
    fn write_entry(&self, buffer: &mut [u8]) -> Result<usize, u32> {
        match self {
            Write::Switch(own) => write_switch(buffer, own),
            Write::Router {
                nexthop,
                src_mask,
                dst_mask,
            } => write_router(buffer, nexthop, *src_mask, *dst_mask),
            Write::Gateway {
                words,
                segments,
                segment_octets,
                communities,
                local_preference,
            } => write_gateway(
                buffer,
                *words,
                *segments,
                segment_octets,
                communities,
                *local_preference,
            ),
            Write::Segment { kind, numbers } => write_segment(buffer, *kind, numbers),
            Write::User { src_user, dst_user } => write_user(buffer, src_user, dst_user),
            Write::Url { direction, url } => write_url(buffer, *direction, url),
            // The others are called above.
            _ => Err(NOT_IN_GRAMMAR),
        }
    }
}
