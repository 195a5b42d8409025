//! The attributes of a flow sample, each 32 bits and numbered as in RFC 2722,
//! Appendix C.

use crate::cursor::Cursor;
use crate::sample_reader::read_sample;
use crate::value::*;

/// Null, whose test always succeeds.
pub const NULL: u8 = 0;
/// The interface that the packet came in by.
pub const SOURCE_INTERFACE: u8 = 4;
/// The source's kind of network address.
pub const SOURCE_PEER_TYPE: u8 = 8;
/// The source's network address.
pub const SOURCE_PEER_ADDRESS: u8 = 9;
/// The source's transport protocol.
pub const SOURCE_TRANS_TYPE: u8 = 11;
/// The source's port.
pub const SOURCE_TRANS_ADDRESS: u8 = 12;
/// The interface that the packet went out by.
pub const DEST_INTERFACE: u8 = 14;
/// The destination's kind of network address.
pub const DEST_PEER_TYPE: u8 = 18;
/// The destination's network address.
pub const DEST_PEER_ADDRESS: u8 = 19;
/// The destination's transport protocol.
pub const DEST_TRANS_TYPE: u8 = 21;
/// The destination's port.
pub const DEST_TRANS_ADDRESS: u8 = 22;

/// All attributes but Null, by their numbers.
pub const VALUED: [u8; 10] = [
    SOURCE_INTERFACE,
    SOURCE_PEER_TYPE,
    SOURCE_PEER_ADDRESS,
    SOURCE_TRANS_TYPE,
    SOURCE_TRANS_ADDRESS,
    DEST_INTERFACE,
    DEST_PEER_TYPE,
    DEST_PEER_ADDRESS,
    DEST_TRANS_TYPE,
    DEST_TRANS_ADDRESS,
];

/// Whether there is an attribute of this number, Null included.
pub fn is_attribute(number: u8) -> bool {
    number == NULL || VALUED.contains(&number)
}

/// The peer type of IPv4.
pub const PEER_IPV4: u32 = 1;
/// The peer type of IPv6.
pub const PEER_IPV6: u32 = 2;

/// The header protocol of Ethernet; it and the next are looked into.
pub const ETHERNET: u32 = 1;
/// The header protocol of IPv4.
pub const IPV4: u32 = 11;

/// The octets of an Ethernet header.
pub const ETHERNET_OCTETS: usize = 14;
/// The type of IPv4 in the last two octets of an Ethernet header.
pub const ETHERNET_IPV4: [u8; 2] = [0x08, 0x00];

/// The least octets of an IPv4 header.
pub const LEAST_IPV4_OCTETS: usize = 20;

/// The IP protocol TCP, which has ports.
pub const TCP: u8 = 6;
/// The IP protocol UDP, which has ports.
pub const UDP: u8 = 17;

/// What a flow sample tells of its packet.
#[derive(Clone, Copy, Debug, Default, PartialEq, Eq)]
pub struct Attributes {
    /// The sample's input.
    pub source_interface: u32,
    /// The sample's output.
    pub dest_interface: u32,
    /// What is known of the packet's addresses and ports.
    pub peers: Peers,
}

/// The peer and transport attributes; source and destination share types.
#[derive(Clone, Copy, Debug, Default, PartialEq, Eq)]
pub struct Peers {
    /// 1 for IPv4, 2 for IPv6, otherwise 0.
    pub peer_type: u32,
    /// The IPv4 source address, otherwise 0.
    pub source_address: u32,
    /// The IPv4 destination address, otherwise 0.
    pub dest_address: u32,
    /// The IP protocol.
    pub protocol: u32,
    /// The source port.
    pub source_port: u32,
    /// The destination port.
    pub dest_port: u32,
}

impl Attributes {
    /// The value of the attribute with this number; 0 of any other.
    pub fn value(&self, number: u8) -> u32 {
        match number {
            SOURCE_INTERFACE => self.source_interface,
            DEST_INTERFACE => self.dest_interface,
            SOURCE_PEER_TYPE | DEST_PEER_TYPE => self.peers.peer_type,
            SOURCE_PEER_ADDRESS => self.peers.source_address,
            DEST_PEER_ADDRESS => self.peers.dest_address,
            SOURCE_TRANS_TYPE | DEST_TRANS_TYPE => self.peers.protocol,
            SOURCE_TRANS_ADDRESS => self.peers.source_port,
            DEST_TRANS_ADDRESS => self.peers.dest_port,
            _ => 0,
        }
    }

    /// The values of all attributes but Null, in the order of their numbers.
    pub fn values(&self) -> [u32; 10] {
        VALUED.map(|number| self.value(number))
    }
}

/// The flow sample that the octets are exactly, from its type word to the
/// last octet. No length is too great for it.
pub fn exact_flow_sample(octets: &[u8]) -> Option<FlowSample> {
    let mut cursor = Cursor::new(octets);
    match read_sample(&mut cursor) {
        Ok(Sample::Flow(flow)) if cursor.at_end() => Some(flow),
        _ => None,
    }
}

/// The attributes of a flow sample.
pub fn attributes(flow: &FlowSample) -> Attributes {
    Attributes {
        source_interface: flow.input,
        dest_interface: flow.output,
        peers: match &flow.packet_data {
            PacketData::Header(header) => header_peers(header),
            PacketData::Ipv4(data) => ipv4_data(data),
            PacketData::Ipv6(data) => ipv6_data(data),
        },
    }
}

fn ipv4_data(data: &SampledIpv4) -> Peers {
    Peers {
        peer_type: PEER_IPV4,
        source_address: u32::from_be_bytes(data.src_ip),
        dest_address: u32::from_be_bytes(data.dst_ip),
        protocol: data.protocol,
        source_port: data.src_port,
        dest_port: data.dst_port,
    }
}

fn ipv6_data(data: &SampledIpv6) -> Peers {
    Peers {
        peer_type: PEER_IPV6,
        source_address: 0,
        dest_address: 0,
        protocol: data.protocol,
        source_port: data.src_port,
        dest_port: data.dst_port,
    }
}

/// All zero unless the header data hold an IPv4 packet.
fn header_peers(header: &SampledHeader) -> Peers {
    let packet = packet_octets(header);
    packet.and_then(ipv4_packet).unwrap_or_default()
}

/// The sampled octets from the place on where an IPv4 packet would begin.
fn packet_octets(header: &SampledHeader) -> Option<&[u8]> {
    let octets = &header.header;
    match header.protocol {
        ETHERNET if octets.get(12..14)? == ETHERNET_IPV4 => octets.get(ETHERNET_OCTETS..),
        IPV4 => Some(octets),
        _ => None,
    }
}

/// What the octets tell, if they count as an IPv4 packet.
fn ipv4_packet(octets: &[u8]) -> Option<Peers> {
    let fixed: &[u8; LEAST_IPV4_OCTETS] = octets.first_chunk()?;
    let header_length = usize::from(fixed[0] & 0x0f) * 4;
    if fixed[0] >> 4 != 4 || header_length < LEAST_IPV4_OCTETS {
        return None;
    }
    let behind = octets.get(header_length..)?;
    let (source_port, dest_port) = ports(fixed[9], behind);
    Some(Peers {
        peer_type: PEER_IPV4,
        source_address: u32::from_be_bytes([fixed[12], fixed[13], fixed[14], fixed[15]]),
        dest_address: u32::from_be_bytes([fixed[16], fixed[17], fixed[18], fixed[19]]),
        protocol: u32::from(fixed[9]),
        source_port,
        dest_port,
    })
}

/// The ports in the octets behind the IP header; zeros unless all four octets
/// are there and the protocol has ports.
fn ports(protocol: u8, behind: &[u8]) -> (u32, u32) {
    let port = |high, low| u32::from(u16::from_be_bytes([high, low]));
    match (protocol, behind) {
        (TCP | UDP, &[a, b, c, d, ..]) => (port(a, b), port(c, d)),
        _ => (0, 0),
    }
}
