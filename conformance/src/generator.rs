//! Valid datagrams of every form, from a seeded source of numbers.

use crate::counters::{CountersVersion, Width};
use crate::grammar;
use crate::parts::*;
use crate::random::Random;
use crate::value::*;

/// Valid datagrams that together have every form of the grammar.
pub fn valid_datagrams(random: &mut Random) -> Vec<Datagram> {
    let mut datagrams = without_samples(random);
    datagrams.extend(header_lengths(random));
    datagrams.extend(ip_packet_data(random));
    datagrams.extend(gateways(random));
    datagrams.extend(strings(random));
    datagrams.extend(other_extended_data(random));
    datagrams.extend(counter_versions(random));
    datagrams.extend(long_lists(random));
    datagrams.extend(extreme_values());
    datagrams.extend((0..45).map(|_| mixed(random)));
    datagrams
}

/// Both address types without samples.
fn without_samples(random: &mut Random) -> Vec<Datagram> {
    let addresses = [
        Address::IpV4([10, 0, 0, 7]),
        Address::IpV4([0; 4]),
        Address::IpV4([255; 4]),
        Address::IpV6([0; 16]),
        Address::IpV6([255; 16]),
        Address::IpV6(random.array()),
    ];
    let empty = |agent_address| Datagram {
        agent_address,
        sequence_number: random.word(),
        uptime: random.word(),
        samples: Vec::new(),
    };
    addresses.map(empty).into()
}

/// Every header length from 0 to 256, four to a datagram, with the header
/// protocols in turn: 4 and 13 have no common divisor, so every protocol
/// comes with every amount of padding.
fn header_lengths(random: &mut Random) -> Vec<Datagram> {
    let lengths: Vec<usize> = (0..=grammar::MAX_HEADER_SIZE as usize).collect();
    lengths
        .chunks(4)
        .map(|chunk| {
            let samples = chunk
                .iter()
                .map(|&length| {
                    let data = header(random, header_protocol(length), length);
                    flow(random, data, Vec::new())
                })
                .collect();
            datagram(random, samples)
        })
        .collect()
}

/// IPv4 and IPv6 packet data, with and without extended data behind them.
fn ip_packet_data(random: &mut Random) -> Vec<Datagram> {
    let mut datagrams = Vec::new();
    for entries in 0..3 {
        for kind in 0..2 {
            let data = if kind == 0 {
                ipv4(random)
            } else {
                ipv6(random)
            };
            let extended = (0..entries).map(|_| switch(random)).collect();
            let sample = flow(random, data, extended);
            datagrams.push(datagram(random, vec![sample]));
        }
    }
    datagrams
}

/// Gateways with 0 to 3 segments of 0 to 5 words and 0 to 3 communities.
fn gateways(random: &mut Random) -> Vec<Datagram> {
    let paths: [&[usize]; 8] = [
        &[],
        &[0],
        &[1],
        &[0, 0],
        &[5, 0],
        &[0, 2],
        &[1, 2, 3],
        &[2, 0, 1],
    ];
    let mut datagrams = Vec::new();
    for path in paths {
        for communities in [0, 1, 3] {
            let entry = gateway(random, path, communities);
            let data = packet_data(random);
            let sample = flow(random, data, vec![entry]);
            datagrams.push(datagram(random, vec![sample]));
        }
    }
    datagrams
}

/// Users and URLs with strings of 0 to 9 octets, so every amount of padding
/// comes in each place, with further data behind them.
fn strings(random: &mut Random) -> Vec<Datagram> {
    let mut datagrams = Vec::new();
    for length in 0..10 {
        let src_user = random.octets(length);
        let dst_user = random.octets((length * 3 + 1) % 10);
        let text = random.octets(length);
        let direction = if length % 2 == 0 {
            UrlDirection::Src
        } else {
            UrlDirection::Dst
        };
        let other = if length % 2 == 0 {
            UrlDirection::Dst
        } else {
            UrlDirection::Src
        };
        let entries = [
            vec![user(&src_user, &dst_user)],
            vec![url(direction, &text), switch(random)],
            vec![user(&dst_user, &src_user), url(other, &text)],
        ];
        for extended in entries {
            let data = packet_data(random);
            let sample = flow(random, data, extended);
            datagrams.push(datagram(random, vec![sample]));
        }
    }
    datagrams
}

/// Switches, routers with both address types, and all kinds in one sample.
fn other_extended_data(random: &mut Random) -> Vec<Datagram> {
    let short = Address::IpV4(random.array());
    let long = Address::IpV6(random.array());
    let lists = [
        vec![switch(random)],
        vec![router(random, short)],
        vec![router(random, long)],
        vec![router(random, long), router(random, short), switch(random)],
        vec![switch(random), switch(random), switch(random)],
        every_extended_kind(random),
    ];
    let mut datagrams = Vec::new();
    for extended in lists {
        let data = packet_data(random);
        let sample = flow(random, data, extended);
        let behind = counters(random, CountersVersion::Vlan);
        datagrams.push(datagram(random, vec![sample, behind]));
    }
    datagrams
}

/// One entry of each extended kind, the router with both address types.
pub fn every_extended_kind(random: &mut Random) -> Vec<ExtendedData> {
    let short = Address::IpV4(random.array());
    let long = Address::IpV6(random.array());
    vec![
        url(UrlDirection::Dst, b"/a"),
        user(b"someone", b""),
        gateway(random, &[2, 1], 2),
        router(random, long),
        router(random, short),
        switch(random),
    ]
}

/// Every counters version alone, then all in one datagram.
fn counter_versions(random: &mut Random) -> Vec<Datagram> {
    let mut datagrams = Vec::new();
    for version in CountersVersion::ALL.into_iter().chain(CountersVersion::ALL) {
        let sample = counters(random, version);
        datagrams.push(datagram(random, vec![sample]));
    }
    let all = CountersVersion::ALL.map(|version| counters(random, version));
    datagrams.push(datagram(random, all.into()));
    datagrams
}

/// Many samples, many path segments and communities, many extended data.
fn long_lists(random: &mut Random) -> Vec<Datagram> {
    let many = (0..40)
        .map(|_| counters(random, CountersVersion::Vlan))
        .collect();
    let entry = gateway(random, &[3; 40], 90);
    let data = ipv4(random);
    let long_gateway = flow(random, data, vec![entry]);
    let entries = (0..30)
        .map(|turn| url(UrlDirection::Src, &random.octets(turn)))
        .collect();
    let data = ipv6(random);
    let many_urls = flow(random, data, entries);
    vec![
        datagram(random, many),
        datagram(random, vec![long_gateway]),
        datagram(random, vec![many_urls]),
    ]
}

/// Every number of a sample zero, then every number the greatest.
fn extreme_values() -> Vec<Datagram> {
    [(0, 0), (u32::MAX, u64::MAX)]
        .into_iter()
        .map(|(word, hyper)| {
            let mut samples = vec![uniform_flow(word)];
            samples
                .extend(CountersVersion::ALL.map(|version| uniform_counters(version, word, hyper)));
            Datagram {
                agent_address: Address::IpV4(word.to_be_bytes()),
                sequence_number: word,
                uptime: word,
                samples,
            }
        })
        .collect()
}

/// A flow sample whose free words all have this value.
fn uniform_flow(word: u32) -> Sample {
    Sample::Flow(FlowSample {
        sequence_number: word,
        source_id: word,
        sampling_rate: word,
        sample_pool: word,
        drops: word,
        input: word,
        output: word,
        packet_data: PacketData::Header(SampledHeader {
            protocol: grammar::LAST_HEADER_PROTOCOL,
            frame_length: word,
            header: word.to_be_bytes().to_vec(),
        }),
        extended_data: vec![ExtendedData::Gateway(ExtendedGateway {
            r#as: word,
            src_as: word,
            src_peer_as: word,
            dst_as_path: vec![AsPath::AsSequence(vec![word])],
            communities: vec![word],
            localpref: word,
        })],
    })
}

/// A counter sample whose words and hypers all have these values.
fn uniform_counters(version: CountersVersion, word: u32, hyper: u64) -> Sample {
    let value = |width| match width {
        Width::Word => u64::from(word),
        Width::Hyper => hyper,
    };
    Sample::Counters(CountersSample {
        sequence_number: word,
        source_id: word,
        sampling_interval: word,
        version,
        counters: version.fields().map(|field| value(field.width)).collect(),
    })
}
