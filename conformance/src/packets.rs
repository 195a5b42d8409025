//! Sampled octets of IPv4 packets, and flow samples around them.

use crate::attributes::{ETHERNET, ETHERNET_IPV4, ETHERNET_OCTETS, IPV4};
use crate::encoder::encode_sample;
use crate::value::*;

/// The source address of the packets made here.
pub const SOURCE: u32 = 0x0a01_0203;
/// The destination address of the packets made here.
pub const DEST: u32 = 0xc0a8_fe05;
/// Their source port.
pub const SOURCE_PORT: u32 = 0x1234;
/// Their destination port.
pub const DEST_PORT: u32 = 0xfedc;

/// The input of the samples made here.
pub const INPUT: u32 = 0x8000_0007;
/// The output of the samples made here.
pub const OUTPUT: u32 = 0x0000_0102;

/// What an IPv4 packet's first octets are like.
#[derive(Clone, Copy, Debug, PartialEq, Eq)]
pub struct Ipv4Form {
    /// The version nibble.
    pub version: u8,
    /// The header length in its nibble, in words.
    pub words: u8,
    /// The IP protocol.
    pub protocol: u8,
    /// The octets behind the header.
    pub behind: usize,
}

impl Ipv4Form {
    /// TCP without options, and so many octets behind the header.
    pub const fn tcp(behind: usize) -> Ipv4Form {
        Ipv4Form {
            version: 4,
            words: 5,
            protocol: 6,
            behind,
        }
    }

    /// The header length in octets.
    pub fn header_length(&self) -> usize {
        usize::from(self.words) * 4
    }

    /// The octets: the header as long as it says, options being ee, then the
    /// ports and further octets, as many as are behind it.
    pub fn octets(&self) -> Vec<u8> {
        let first = self.version << 4 | self.words;
        let mut header = vec![
            first,
            0,
            0,
            40,
            0,
            1,
            0x40,
            0,
            64,
            self.protocol,
            0xab,
            0xcd,
        ];
        header.extend(SOURCE.to_be_bytes());
        header.extend(DEST.to_be_bytes());
        header.resize(self.header_length(), 0xee);
        header.extend(self.payload());
        header
    }

    fn payload(&self) -> impl Iterator<Item = u8> {
        let ports = (SOURCE_PORT << 16 | DEST_PORT).to_be_bytes();
        let further = std::iter::repeat(0xdd);
        ports.into_iter().chain(further).take(self.behind)
    }
}

/// An Ethernet frame of this type around the packet.
pub fn ethernet(kind: [u8; 2], packet: &[u8]) -> Vec<u8> {
    let mut frame = vec![0x02; ETHERNET_OCTETS - kind.len()];
    frame.extend(kind);
    frame.extend(packet);
    frame
}

/// The sampled octets that hold the packet for header protocol 1 or 11.
pub fn carried(protocol: u32, packet: &[u8]) -> Vec<u8> {
    match protocol {
        ETHERNET => ethernet(ETHERNET_IPV4, packet),
        _ => packet.to_vec(),
    }
}

/// Both header protocols that are looked into.
pub const CARRIERS: [u32; 2] = [ETHERNET, IPV4];

/// The flow sample with these packet data and no extended data.
pub fn flow_of(packet_data: PacketData) -> FlowSample {
    FlowSample {
        sequence_number: 9,
        source_id: 3,
        sampling_rate: 512,
        sample_pool: 4096,
        drops: 0,
        input: INPUT,
        output: OUTPUT,
        packet_data,
        extended_data: Vec::new(),
    }
}

/// Header data of this protocol with these octets.
pub fn header_data(protocol: u32, header: Vec<u8>) -> PacketData {
    PacketData::Header(SampledHeader {
        protocol,
        frame_length: 1500,
        header,
    })
}

/// The octets of the flow sample with these packet data.
pub fn sample_octets(packet_data: PacketData) -> Vec<u8> {
    encode_sample(&Sample::Flow(flow_of(packet_data))).octets
}

/// The octets of a flow sample with header data.
pub fn header_sample(protocol: u32, header: Vec<u8>) -> Vec<u8> {
    sample_octets(header_data(protocol, header))
}

/// The octets of the flow sample with a whole TCP packet.
pub fn tcp_sample() -> Vec<u8> {
    header_sample(IPV4, Ipv4Form::tcp(20).octets())
}
