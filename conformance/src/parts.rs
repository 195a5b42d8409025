//! Parts of valid datagrams with random numbers in every free field.

use crate::counters::{CountersVersion, Width};
use crate::grammar;
use crate::random::Random;
use crate::value::*;

/// A datagram with a random beginning and these samples.
pub fn datagram(random: &mut Random, samples: Vec<Sample>) -> Datagram {
    Datagram {
        agent_address: address(random),
        sequence_number: random.word(),
        uptime: random.word(),
        samples,
    }
}

/// A random address of either type.
pub fn address(random: &mut Random) -> Address {
    if random.below(2) == 0 {
        Address::IpV4(random.array())
    } else {
        Address::IpV6(random.array())
    }
}

/// A flow sample with random numbers and these data.
pub fn flow(
    random: &mut Random,
    packet_data: PacketData,
    extended_data: Vec<ExtendedData>,
) -> Sample {
    Sample::Flow(FlowSample {
        sequence_number: random.word(),
        source_id: random.word(),
        sampling_rate: random.word(),
        sample_pool: random.word(),
        drops: random.word(),
        input: random.word(),
        output: random.word(),
        packet_data,
        extended_data,
    })
}

/// Header data of this protocol and length.
pub fn header(random: &mut Random, protocol: u32, length: usize) -> PacketData {
    PacketData::Header(SampledHeader {
        protocol,
        frame_length: random.word(),
        header: random.octets(length),
    })
}

/// IPv4 data with random numbers.
pub fn ipv4(random: &mut Random) -> PacketData {
    PacketData::Ipv4(SampledIpv4 {
        length: random.word(),
        protocol: random.word(),
        src_ip: random.array(),
        dst_ip: random.array(),
        src_port: random.word(),
        dst_port: random.word(),
        tcp_flags: random.word(),
        tos: random.word(),
    })
}

/// IPv6 data with random numbers.
pub fn ipv6(random: &mut Random) -> PacketData {
    PacketData::Ipv6(SampledIpv6 {
        length: random.word(),
        protocol: random.word(),
        src_ip: random.array(),
        dst_ip: random.array(),
        src_port: random.word(),
        dst_port: random.word(),
        tcp_flags: random.word(),
        priority: random.word(),
    })
}

/// Switch data with random numbers.
pub fn switch(random: &mut Random) -> ExtendedData {
    ExtendedData::Switch(ExtendedSwitch {
        src_vlan: random.word(),
        src_priority: random.word(),
        dst_vlan: random.word(),
        dst_priority: random.word(),
    })
}

/// Router data with this next hop.
pub fn router(random: &mut Random, nexthop: Address) -> ExtendedData {
    ExtendedData::Router(ExtendedRouter {
        nexthop,
        src_mask: random.word(),
        dst_mask: random.word(),
    })
}

/// A gateway with segments of these lengths and so many communities.
pub fn gateway(random: &mut Random, segments: &[usize], communities: usize) -> ExtendedData {
    ExtendedData::Gateway(ExtendedGateway {
        r#as: random.word(),
        src_as: random.word(),
        src_peer_as: random.word(),
        dst_as_path: segments
            .iter()
            .map(|&length| segment(random, length))
            .collect(),
        communities: random.words(communities),
        localpref: random.word(),
    })
}

/// A path segment of either type with so many words.
pub fn segment(random: &mut Random, length: usize) -> AsPath {
    let numbers = random.words(length);
    if random.below(2) == 0 {
        AsPath::AsSet(numbers)
    } else {
        AsPath::AsSequence(numbers)
    }
}

/// User data with these names.
pub fn user(src_user: &[u8], dst_user: &[u8]) -> ExtendedData {
    ExtendedData::User(ExtendedUser {
        src_user: src_user.to_vec(),
        dst_user: dst_user.to_vec(),
    })
}

/// URL data with this text.
pub fn url(direction: UrlDirection, url: &[u8]) -> ExtendedData {
    ExtendedData::Url(ExtendedUrl {
        direction,
        url: url.to_vec(),
    })
}

/// A counter sample with random numbers in every field.
pub fn counters(random: &mut Random, version: CountersVersion) -> Sample {
    let counters = version
        .fields()
        .map(|field| match field.width {
            Width::Word => u64::from(random.word()),
            Width::Hyper => random.hyper(),
        })
        .collect();
    Sample::Counters(CountersSample {
        sequence_number: random.word(),
        source_id: random.word(),
        sampling_interval: random.word(),
        version,
        counters,
    })
}

/// The header protocols 1 to 13 in turn.
pub fn header_protocol(turn: usize) -> u32 {
    (turn % grammar::LAST_HEADER_PROTOCOL as usize) as u32 + grammar::FIRST_HEADER_PROTOCOL
}

/// A datagram of 0 to 5 random samples.
pub fn mixed(random: &mut Random) -> Datagram {
    let count = random.below(6);
    let samples = (0..count).map(|_| sample(random)).collect();
    datagram(random, samples)
}

/// A random sample of either kind.
pub fn sample(random: &mut Random) -> Sample {
    if random.below(3) == 0 {
        let turn = random.below(CountersVersion::ALL.len());
        let version = CountersVersion::ALL.into_iter().nth(turn);
        return counters(random, version.unwrap_or(CountersVersion::Generic));
    }
    let data = packet_data(random);
    let count = random.below(4);
    let extended = (0..count).map(|_| extended_data(random)).collect();
    flow(random, data, extended)
}

/// Random packet data of any type.
pub fn packet_data(random: &mut Random) -> PacketData {
    match random.below(4) {
        0 => ipv4(random),
        1 => ipv6(random),
        _ => {
            let protocol = header_protocol(random.below(13));
            let length = random.below(40);
            header(random, protocol, length)
        }
    }
}

/// Random extended data of any kind.
pub fn extended_data(random: &mut Random) -> ExtendedData {
    match random.below(5) {
        0 => switch(random),
        1 => {
            let nexthop = address(random);
            router(random, nexthop)
        }
        2 => {
            let segments: Vec<usize> = (0..random.below(4)).map(|_| random.below(4)).collect();
            let communities = random.below(4);
            gateway(random, &segments, communities)
        }
        3 => {
            let (first, second) = (random.below(14), random.below(14));
            user(&random.octets(first), &random.octets(second))
        }
        _ => {
            let direction = if random.below(2) == 0 {
                UrlDirection::Src
            } else {
                UrlDirection::Dst
            };
            let length = random.below(30);
            url(direction, &random.octets(length))
        }
    }
}
