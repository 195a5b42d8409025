//! Packet data of a flow sample.
use crate::address;
use crate::octets::part;
use std::net::{Ipv4Addr, Ipv6Addr};

/// What a flow sample tells of the sampled packet.
#[derive(Clone, Copy, Debug, PartialEq, Eq)]
pub enum PacketData<'a> {
    /// type 1
    Header(SampledHeader<'a>),
    /// type 2
    Ipv4(Ipv4Data),
    /// type 3
    Ipv6(Ipv6Data),
}

/// The first octets of a packet.
#[derive(Clone, Copy, Debug, PartialEq, Eq)]
pub struct SampledHeader<'a> {
    /// 1 Ethernet, 2 token bus, 3 token ring, 4 FDDI, 5 frame relay, 6 X.25, 7 PPP, 8 SMDS, 9 AAL5,
    /// 10 AAL5-IP, 11 IPv4, 12 IPv6, 13 MPLS
    pub protocol: u32,
    /// the length of the frame before sampling
    pub frame_length: u32,
    /// the octets, at most 256
    pub octets: &'a [u8],
}

/// Fields of an IPv4 packet.
#[derive(Clone, Copy, Debug, PartialEq, Eq)]
pub struct Ipv4Data {
    /// the packet's length
    pub length: u32,
    /// the IP protocol
    pub protocol: u32,
    /// the source's address
    pub source: Ipv4Addr,
    /// the destination's address
    pub destination: Ipv4Addr,
    /// the source's port
    pub source_port: u32,
    /// the destination's port
    pub destination_port: u32,
    /// TCP flags
    pub tcp_flags: u32,
    /// type of service
    pub tos: u32,
}

impl Ipv4Data {
    /// The eight words that the library takes.
    pub(crate) fn words(&self) -> [u32; 8] {
        [
            self.length,
            self.protocol,
            self.source.into(),
            self.destination.into(),
            self.source_port,
            self.destination_port,
            self.tcp_flags,
            self.tos,
        ]
    }
}

/// Fields of an IPv6 packet.
#[derive(Clone, Copy, Debug, PartialEq, Eq)]
pub struct Ipv6Data {
    /// the packet's length
    pub length: u32,
    /// the IP protocol (next header)
    pub protocol: u32,
    /// the source's address
    pub source: Ipv6Addr,
    /// the destination's address
    pub destination: Ipv6Addr,
    /// the source's port
    pub source_port: u32,
    /// the destination's port
    pub destination_port: u32,
    /// TCP flags
    pub tcp_flags: u32,
    /// priority
    pub priority: u32,
}

impl Ipv6Data {
    /// The fourteen words that the library takes.
    pub(crate) fn words(&self) -> [u32; 14] {
        let [a, b, c, d] = address::to_ipv6_words(self.source);
        let [e, f, g, h] = address::to_ipv6_words(self.destination);
        [
            self.length,
            self.protocol,
            a,
            b,
            c,
            d,
            e,
            f,
            g,
            h,
            self.source_port,
            self.destination_port,
            self.tcp_flags,
            self.priority,
        ]
    }
}

fn ipv4_data(out: &[u64; 45]) -> Ipv4Data {
    Ipv4Data {
        length: out[13] as u32,
        protocol: out[14] as u32,
        source: address::ipv4(out[15]),
        destination: address::ipv4(out[16]),
        source_port: out[17] as u32,
        destination_port: out[18] as u32,
        tcp_flags: out[19] as u32,
        tos: out[20] as u32,
    }
}

fn ipv6_data(out: &[u64; 45]) -> Ipv6Data {
    Ipv6Data {
        length: out[13] as u32,
        protocol: out[14] as u32,
        source: address::ipv6([out[15], out[16], out[17], out[18]]),
        destination: address::ipv6([out[19], out[20], out[21], out[22]]),
        source_port: out[23] as u32,
        destination_port: out[24] as u32,
        tcp_flags: out[25] as u32,
        priority: out[26] as u32,
    }
}

impl<'a> PacketData<'a> {
    /// The packet data of a flow sample, which the library told in these numbers of these octets.
    pub(crate) fn of(octets: &'a [u8], out: &[u64; 45]) -> PacketData<'a> {
        match out[10] {
            2 => PacketData::Ipv4(ipv4_data(out)),
            3 => PacketData::Ipv6(ipv6_data(out)),
            _ => PacketData::Header(SampledHeader {
                protocol: out[13] as u32,
                frame_length: out[14] as u32,
                octets: part(octets, out[15], out[16]),
            }),
        }
    }
}
