//! The values of a datagram, with the field names of RFC 3176, section 4.

use crate::counters::CountersVersion;
use crate::grammar;

/// An address with its type.
#[derive(Clone, Copy, Debug, PartialEq, Eq)]
pub enum Address {
    /// Type 1.
    IpV4([u8; 4]),
    /// Type 2.
    IpV6([u8; 16]),
}

impl Address {
    /// The address type's number.
    pub fn type_number(&self) -> u32 {
        match self {
            Address::IpV4(_) => grammar::IP_V4,
            Address::IpV6(_) => grammar::IP_V6,
        }
    }
}

/// A datagram.
#[derive(Clone, Debug, PartialEq, Eq)]
pub struct Datagram {
    /// The address of the sampling agent.
    pub agent_address: Address,
    /// Counts the agent's datagrams.
    pub sequence_number: u32,
    /// Milliseconds since the agent was started.
    pub uptime: u32,
    /// The samples in their order.
    pub samples: Vec<Sample>,
}

/// A sample of either type.
#[derive(Clone, Debug, PartialEq, Eq)]
pub enum Sample {
    /// Type 1.
    Flow(FlowSample),
    /// Type 2.
    Counters(CountersSample),
}

/// What is told of one sampled packet.
#[derive(Clone, Debug, PartialEq, Eq)]
pub struct FlowSample {
    /// Counts the source's flow samples.
    pub sequence_number: u32,
    /// The source: its class in the top octet, its index in the others.
    pub source_id: u32,
    /// How many packets there are to one sample.
    pub sampling_rate: u32,
    /// The packets that could have been sampled so far.
    pub sample_pool: u32,
    /// How often a sample was dropped for lack of resources.
    pub drops: u32,
    /// The interface that the packet came in by.
    pub input: u32,
    /// The interface that the packet went out by.
    pub output: u32,
    /// What is known of the packet.
    pub packet_data: PacketData,
    /// What else is known of its way.
    pub extended_data: Vec<ExtendedData>,
}

/// Packet data of any type.
#[derive(Clone, Debug, PartialEq, Eq)]
pub enum PacketData {
    /// Type 1.
    Header(SampledHeader),
    /// Type 2.
    Ipv4(SampledIpv4),
    /// Type 3.
    Ipv6(SampledIpv6),
}

/// The first octets of a packet.
#[derive(Clone, Debug, PartialEq, Eq)]
pub struct SampledHeader {
    /// 1 to 13.
    pub protocol: u32,
    /// The length of the packet before sampling.
    pub frame_length: u32,
    /// At most 256 octets.
    pub header: Vec<u8>,
}

/// The fields of an IPv4 packet.
#[derive(Clone, Debug, PartialEq, Eq)]
pub struct SampledIpv4 {
    /// The length of the IP packet.
    pub length: u32,
    /// The IP protocol.
    pub protocol: u32,
    /// The source address.
    pub src_ip: [u8; 4],
    /// The destination address.
    pub dst_ip: [u8; 4],
    /// The source port.
    pub src_port: u32,
    /// The destination port.
    pub dst_port: u32,
    /// The TCP flags.
    pub tcp_flags: u32,
    /// The type of service.
    pub tos: u32,
}

/// The fields of an IPv6 packet.
#[derive(Clone, Debug, PartialEq, Eq)]
pub struct SampledIpv6 {
    /// The length of the IP packet.
    pub length: u32,
    /// The next header.
    pub protocol: u32,
    /// The source address.
    pub src_ip: [u8; 16],
    /// The destination address.
    pub dst_ip: [u8; 16],
    /// The source port.
    pub src_port: u32,
    /// The destination port.
    pub dst_port: u32,
    /// The TCP flags.
    pub tcp_flags: u32,
    /// The priority.
    pub priority: u32,
}

/// An entry of extended data of any type.
#[derive(Clone, Debug, PartialEq, Eq)]
pub enum ExtendedData {
    /// Type 1.
    Switch(ExtendedSwitch),
    /// Type 2.
    Router(ExtendedRouter),
    /// Type 3.
    Gateway(ExtendedGateway),
    /// Type 4.
    User(ExtendedUser),
    /// Type 5.
    Url(ExtendedUrl),
}

/// What a switch knows.
#[derive(Clone, Debug, PartialEq, Eq)]
pub struct ExtendedSwitch {
    /// The VLAN of the frame that came in.
    pub src_vlan: u32,
    /// The priority of the frame that came in.
    pub src_priority: u32,
    /// The VLAN of the frame that went out.
    pub dst_vlan: u32,
    /// The priority of the frame that went out.
    pub dst_priority: u32,
}

/// What a router knows.
#[derive(Clone, Debug, PartialEq, Eq)]
pub struct ExtendedRouter {
    /// The address of the next router.
    pub nexthop: Address,
    /// The bits of the source's prefix mask.
    pub src_mask: u32,
    /// The bits of the destination's prefix mask.
    pub dst_mask: u32,
}

/// What a gateway knows.
#[derive(Clone, Debug, PartialEq, Eq)]
pub struct ExtendedGateway {
    /// The router's autonomous system.
    pub r#as: u32,
    /// The source's autonomous system.
    pub src_as: u32,
    /// The autonomous system of the source's peer.
    pub src_peer_as: u32,
    /// The path to the destination.
    pub dst_as_path: Vec<AsPath>,
    /// The communities of the route.
    pub communities: Vec<u32>,
    /// The route's local preference.
    pub localpref: u32,
}

/// One segment of the path to the destination.
#[derive(Clone, Debug, PartialEq, Eq)]
pub enum AsPath {
    /// Unordered, type 1.
    AsSet(Vec<u32>),
    /// Ordered, type 2.
    AsSequence(Vec<u32>),
}

impl AsPath {
    /// The segment type's number.
    pub fn type_number(&self) -> u32 {
        match self {
            AsPath::AsSet(_) => grammar::AS_SET,
            AsPath::AsSequence(_) => grammar::AS_SEQUENCE,
        }
    }

    /// The autonomous system numbers of the segment.
    pub fn numbers(&self) -> &[u32] {
        match self {
            AsPath::AsSet(numbers) | AsPath::AsSequence(numbers) => numbers,
        }
    }
}

/// Who is behind the packet.
#[derive(Clone, Debug, PartialEq, Eq)]
pub struct ExtendedUser {
    /// The user at the source.
    pub src_user: Vec<u8>,
    /// The user at the destination.
    pub dst_user: Vec<u8>,
}

/// The URL that the packet belongs to.
#[derive(Clone, Debug, PartialEq, Eq)]
pub struct ExtendedUrl {
    /// Which address it is associated with.
    pub direction: UrlDirection,
    /// The text.
    pub url: Vec<u8>,
}

/// Which address a URL is associated with.
#[derive(Clone, Copy, Debug, PartialEq, Eq)]
pub enum UrlDirection {
    /// The source.
    Src,
    /// The destination.
    Dst,
}

impl UrlDirection {
    /// The direction's number.
    pub fn number(self) -> u32 {
        match self {
            UrlDirection::Src => grammar::SRC,
            UrlDirection::Dst => grammar::DST,
        }
    }
}

/// The counters of one source.
#[derive(Clone, Debug, PartialEq, Eq)]
pub struct CountersSample {
    /// Counts the source's counter samples.
    pub sequence_number: u32,
    /// The source: its class in the top octet, its index in the others.
    pub source_id: u32,
    /// The seconds between two samples of the source.
    pub sampling_interval: u32,
    /// Which body it has.
    pub version: CountersVersion,
    /// One number for each field of the version's body, in its order.
    pub counters: Vec<u64>,
}
