//! The writer: datagrams in a lent buffer, and every form from values.

use std::collections::BTreeSet;

use conformance::cases::octets_of;
use conformance::counters::CountersVersion;
use conformance::encoder::{encode, encode_extended_data, encode_packet_data, encode_sample};
use conformance::generator::valid_datagrams;
use conformance::random::Random;
use conformance::reader::read;
use conformance::value::*;
use conformance::write_cases::write_cases;
use conformance::writer::*;

/// What a buffer holds before anything is written.
const OLD: u8 = 0xa5;

/// Agent 10.0.0.7; the octets that do not count are set.
fn agent() -> GivenAddress {
    let mut octets = [0xee; 16];
    octets[..4].copy_from_slice(&[10, 0, 0, 7]);
    GivenAddress {
        address_type: 1,
        octets,
    }
}

/// A buffer of this length with case 3's datagram.
fn started(length: usize) -> Vec<u8> {
    let mut buffer = vec![OLD; length];
    assert_eq!(start(&mut buffer, length, &agent(), 1, 1000), Ok(24));
    buffer
}

/// Case 3's datagram with this count of samples.
fn case_3(count: u32) -> Vec<u8> {
    octets_of(&[4, 1, 0x0a00_0007, 1, 1000, count])
}

/// A VLAN counter sample, 48 octets.
fn vlan() -> Vec<u8> {
    octets_of(&[2, 5, 0x0100_0064, 20, 7, 100, 0, 0, 0, 0, 0, 0])
}

/// An Ethernet counter sample, 160 octets.
fn ethernet() -> Vec<u8> {
    [octets_of(&[2, 5, 3, 20, 2]), vec![7; 140]].concat()
}

/// Asks a writer that must refuse with this number and leave the buffer.
fn refuses(number: u32, buffer: &mut [u8], write: impl Fn(&mut [u8]) -> Result<usize, u32>) {
    let before = buffer.to_vec();
    assert_eq!(write(buffer), Err(number));
    assert_eq!(buffer, before);
}

/// Asks a writer of values for these octets: it takes a buffer of their
/// length and a longer one, and refuses all shorter ones with 20.
fn writes(stated: &[u8], write: impl Fn(&mut [u8]) -> Result<usize, u32>) {
    for more in [0, 1, 9] {
        let mut buffer = vec![OLD; stated.len() + more];
        assert_eq!(write(&mut buffer), Ok(stated.len()));
        assert_eq!(buffer, [stated, &vec![OLD; more]].concat());
    }
    for length in 0..stated.len() {
        refuses(NO_ROOM, &mut vec![OLD; length], &write);
    }
}

#[test]
fn case_11() {
    let mut buffer = started(1400);
    let mut length = 24;
    for count in 1..=8 {
        length = append(&mut buffer, 1400, length, &ethernet()).expect("room");
        assert_eq!(length, 24 + 160 * count as usize);
        let stated = [case_3(count), ethernet().repeat(count as usize)].concat();
        assert_eq!(buffer[..length], stated);
        assert!(buffer[length..].iter().all(|&octet| octet == OLD));
    }
    assert_eq!(length, 1304);
    refuses(20, &mut buffer, |b| append(b, 1400, 1304, &ethernet()));
    assert_eq!(append(&mut buffer, 1400, 1304, &vlan()), Ok(1352));
    assert_eq!(append(&mut buffer, 1400, 1352, &vlan()), Ok(1400));
    refuses(20, &mut buffer, |b| append(b, 1400, 1400, &vlan()));
    assert_eq!(read(&buffer).expect("accepted").datagram.samples.len(), 10);
}

#[test]
fn a_datagram_is_started() {
    let mut buffer = vec![OLD; 40];
    assert_eq!(start(&mut buffer, 36, &agent(), 1, 1000), Ok(24));
    assert_eq!(buffer, [case_3(0), vec![OLD; 16]].concat());
    let long = GivenAddress {
        address_type: 2,
        octets: std::array::from_fn(|place| place as u8),
    };
    assert_eq!(start(&mut buffer, 36, &long, 8, 9), Ok(36));
    let words = [4, 2, 0x0001_0203, 0x0405_0607, 0x0809_0a0b, 0x0c0d_0e0f];
    let stated = [octets_of(&words), octets_of(&[8, 9, 0]), vec![OLD; 4]];
    assert_eq!(buffer, stated.concat());
}

#[test]
fn starts_are_refused() {
    let wrong = |address_type| GivenAddress {
        address_type,
        ..agent()
    };
    let mut buffer = vec![OLD; 70_000];
    for limit in [0, 24, 35, 65_508, 70_000, usize::MAX] {
        refuses(21, &mut buffer, |b| start(b, limit, &agent(), 1, 1));
        refuses(21, &mut buffer, |b| start(b, limit, &wrong(3), 1, 1));
    }
    for address_type in [0, 3, 0x0100_0001, u32::MAX] {
        refuses(22, &mut buffer, |b| {
            start(b, 36, &wrong(address_type), 1, 1)
        });
    }
    for limit in [36, 65_507] {
        let mut short = vec![OLD; limit - 1];
        refuses(21, &mut short, |b| start(b, limit, &agent(), 1, 1));
        assert_eq!(start(&mut buffer, limit, &agent(), 1, 1), Ok(24));
    }
}

#[test]
fn limit_and_buffer_are_tested_first() {
    // Everything else is wrong too: the datagram, and the sample.
    for (room, limit) in [(100, 35), (100, 101), (70_000, 65_508), (35, 36), (0, 0)] {
        let mut buffer = vec![OLD; room];
        refuses(21, &mut buffer, |b| append(b, limit, 24, &[1]));
        refuses(21, &mut buffer, |b| append(b, limit, usize::MAX, &[1]));
    }
}

#[test]
fn the_datagram_so_far_is_tested_second() {
    let mut buffer = started(200);
    for length in [0, 23, 25, 101, 200, 201, usize::MAX] {
        refuses(23, &mut buffer, |b| append(b, 100, length, &[1]));
        refuses(23, &mut buffer, |b| append(b, 100, length, &vlan()));
    }
    // Accepted, but longer than the limit.
    assert_eq!(append(&mut buffer, 200, 24, &vlan()), Ok(72));
    refuses(23, &mut buffer, |b| append(b, 71, 72, &vlan()));
    refuses(20, &mut buffer, |b| append(b, 72, 72, &vlan()));
    buffer[3] = 5;
    refuses(23, &mut buffer, |b| append(b, 200, 72, &vlan()));
}

#[test]
fn the_sample_is_tested_third() {
    let mut buffer = started(100);
    let whole = vlan();
    let mut longer = whole.clone();
    longer.push(0);
    let two = [&whole[..], &whole].concat();
    let mut long_and_wrong = ethernet();
    long_and_wrong[3] = 3;
    for wrong in [&[][..], &whole[..47], &longer, &two, &long_and_wrong] {
        refuses(22, &mut buffer, |b| append(b, 100, 24, wrong));
        refuses(22, &mut buffer, |b| append(b, 36, 24, wrong));
    }
    // A sample longer than any datagram is a sample all the same.
    let url = [octets_of(&[5, 1, 70_000]), vec![7; 70_000]].concat();
    let head = octets_of(&[1, 9, 3, 512, 4096, 0, 1, 2, 1, 1, 64, 0, 1]);
    let huge = [head, url].concat();
    refuses(20, &mut buffer, |b| append(b, 100, 24, &huge));
    refuses(22, &mut buffer, |b| append(b, 100, 24, &huge[..70_000]));
}

#[test]
fn the_limit_and_not_the_buffer_bounds_the_datagram() {
    let mut buffer = started(200);
    refuses(20, &mut buffer, |b| append(b, 71, 24, &vlan()));
    assert_eq!(append(&mut buffer, 72, 24, &vlan()), Ok(72));
    assert_eq!(buffer[..72], [case_3(1), vlan()].concat());
    assert!(buffer[72..].iter().all(|&octet| octet == OLD));
}

#[test]
fn samples_given_as_values_are_appended() {
    let numbers = [100, 0, 0, 0, 0, 0];
    let counters = GivenCounters {
        sequence: 5,
        source: 0x0100_0064,
        interval: 20,
        version: 7,
        numbers: &numbers,
    };
    let header = octets_of(&[1, 1, 64, 0]);
    let flow = GivenFlow {
        words: [9, 3, 512, 4096, 0, 1, 2],
        packet_octets: &header,
        entries: 0,
        entry_octets: &[],
    };
    let mut buffer = started(200);
    assert_eq!(append_counters(&mut buffer, 124, 24, &counters), Ok(72));
    refuses(20, &mut buffer, |b| append_flow(b, 123, 72, &flow));
    assert_eq!(append_flow(&mut buffer, 124, 72, &flow), Ok(124));
    let own = octets_of(&[1, 9, 3, 512, 4096, 0, 1, 2, 1, 1, 64, 0, 0]);
    assert_eq!(buffer[..124], [case_3(2), vlan(), own].concat());
    assert!(buffer[124..].iter().all(|&octet| octet == OLD));
    // 21, 23, 22, 20, each with all that come behind it.
    let wrong = GivenFlow { entries: 1, ..flow };
    refuses(21, &mut buffer, |b| append_flow(b, 35, 0, &wrong));
    refuses(23, &mut buffer, |b| append_flow(b, 124, 123, &wrong));
    refuses(22, &mut buffer, |b| append_flow(b, 124, 124, &wrong));
    refuses(20, &mut buffer, |b| append_flow(b, 124, 124, &flow));
    let wrong = GivenCounters {
        version: 8,
        ..counters
    };
    refuses(21, &mut buffer, |b| append_counters(b, 201, 0, &wrong));
    refuses(23, &mut buffer, |b| append_counters(b, 123, 124, &wrong));
    refuses(22, &mut buffer, |b| append_counters(b, 124, 124, &wrong));
    refuses(20, &mut buffer, |b| append_counters(b, 124, 124, &counters));
}

#[test]
fn headers_are_written() {
    for (length, padding) in [(0, 0), (1, 3), (2, 2), (3, 1), (4, 0), (255, 1), (256, 0)] {
        let header = vec![9; length];
        let words = octets_of(&[1, 13, 64, length as u32]);
        let stated = [&words[..], &header, &vec![0; padding]].concat();
        writes(&stated, |b| write_header(b, 13, 64, &header));
    }
    for room in [0, 400] {
        let mut buffer = vec![OLD; room];
        refuses(22, &mut buffer, |b| write_header(b, 1, 64, &[9; 257]));
        for protocol in [0, 14, 0x0100_0001, u32::MAX] {
            refuses(22, &mut buffer, |b| write_header(b, protocol, 64, &[]));
        }
    }
}

#[test]
fn ip_data_are_written() {
    let ipv4 = SampledIpv4 {
        length: 40,
        protocol: 6,
        src_ip: [10, 1, 2, 3],
        dst_ip: [192, 168, 254, 5],
        src_port: 80,
        dst_port: 81,
        tcp_flags: 2,
        tos: u32::MAX,
    };
    let words = [2, 40, 6, 0x0a01_0203, 0xc0a8_fe05, 80, 81, 2, u32::MAX];
    writes(&octets_of(&words), |b| write_ipv4(b, &ipv4));
    let ipv6 = SampledIpv6 {
        length: 40,
        protocol: 6,
        src_ip: [1; 16],
        dst_ip: [2; 16],
        src_port: 80,
        dst_port: 81,
        tcp_flags: 2,
        priority: 7,
    };
    let stated = [
        octets_of(&[3, 40, 6]),
        vec![1; 16],
        vec![2; 16],
        octets_of(&[80, 81, 2, 7]),
    ];
    writes(&stated.concat(), |b| write_ipv6(b, &ipv6));
}

#[test]
fn switches_and_routers_are_written() {
    let switch = ExtendedSwitch {
        src_vlan: 1,
        src_priority: 2,
        dst_vlan: 3,
        dst_priority: u32::MAX,
    };
    let stated = octets_of(&[1, 1, 2, 3, u32::MAX]);
    writes(&stated, |b| write_switch(b, &switch));
    let stated = octets_of(&[2, 1, 0x0a00_0007, 24, 16]);
    writes(&stated, |b| write_router(b, &agent(), 24, 16));
    let long = GivenAddress::from(Address::IpV6([5; 16]));
    let stated = [octets_of(&[2, 2]), vec![5; 16], octets_of(&[24, 16])].concat();
    writes(&stated, |b| write_router(b, &long, 24, 16));
    for address_type in [0, 3, u32::MAX] {
        let wrong = GivenAddress {
            address_type,
            ..long
        };
        for room in [0, 100] {
            refuses(22, &mut vec![OLD; room], |b| {
                write_router(b, &wrong, 24, 16)
            });
        }
    }
}

#[test]
fn segments_and_gateways_are_written() {
    writes(&octets_of(&[1, 0]), |b| write_segment(b, 1, &[]));
    writes(&octets_of(&[2, 2, 7, 8]), |b| write_segment(b, 2, &[7, 8]));
    for kind in [0, 3, u32::MAX] {
        refuses(22, &mut [OLD; 3], |b| write_segment(b, kind, &[7]));
    }
    let words = [100, 101, 102];
    let none = octets_of(&[3, 100, 101, 102, 0, 0, 105]);
    writes(&none, |b| write_gateway(b, words, 0, &[], &[], 105));
    let segments = octets_of(&[2, 1, 103, 1, 0]);
    let head = octets_of(&[3, 100, 101, 102, 2]);
    let stated = [&head[..], &segments, &octets_of(&[2, 8, 9, 105])].concat();
    writes(&stated, |b| {
        write_gateway(b, words, 2, &segments, &[8, 9], 105)
    });
    let mut wrong = segments.clone();
    wrong[3] = 3;
    let counts = [
        (0, &segments),
        (1, &segments),
        (3, &segments),
        (u32::MAX, &segments),
        (2, &wrong),
    ];
    for (count, octets) in counts {
        for room in [0, 100] {
            let mut buffer = vec![OLD; room];
            refuses(22, &mut buffer, |b| {
                write_gateway(b, words, count, octets, &[], 1)
            });
        }
    }
    refuses(22, &mut [OLD; 9], |b| {
        write_gateway(b, words, 2, &segments[..19], &[], 1)
    });
}

#[test]
fn users_and_urls_are_written() {
    let stated = [octets_of(&[4, 1]), b"a\0\0\0".to_vec(), octets_of(&[0])].concat();
    writes(&stated, |b| write_user(b, b"a", b""));
    let stated = [octets_of(&[4, 0, 4]), b"four".to_vec()].concat();
    writes(&stated, |b| write_user(b, b"", b"four"));
    for direction in [1, 2] {
        let stated = [octets_of(&[5, direction, 3]), b"/ab\0".to_vec()].concat();
        writes(&stated, |b| write_url(b, direction, b"/ab"));
    }
    for direction in [0, 3, u32::MAX] {
        for room in [0, 100] {
            refuses(22, &mut vec![OLD; room], |b| {
                write_url(b, direction, b"/ab")
            });
        }
    }
}

#[test]
fn flows_are_written() {
    let words = [9, 3, 512, 4096, 0, 1, 2];
    let header = octets_of(&[1, 1, 64, 0]);
    let switch = octets_of(&[1, 10, 0, 20, 0]);
    let head = octets_of(&[1, 9, 3, 512, 4096, 0, 1, 2]);
    for count in 0..4 {
        let entries = switch.repeat(count as usize);
        let stated = [&head[..], &header, &octets_of(&[count]), &entries].concat();
        writes(&stated, |b| write_flow(b, words, &header, count, &entries));
    }
    let two_packets = header.repeat(2);
    let wrong_entry = octets_of(&[6, 10, 0, 20, 0]);
    let cases: [(&[u8], u32, &[u8]); 9] = [
        (&[], 1, &switch),
        (&header[..15], 1, &switch),
        (&two_packets, 1, &switch),
        (&switch, 1, &switch),
        (&header, 0, &switch),
        (&header, 2, &switch),
        (&header, u32::MAX, &switch),
        (&header, 1, &switch[..19]),
        (&header, 1, &wrong_entry),
    ];
    for (packet, count, entries) in cases {
        for room in [0, 200] {
            let mut buffer = vec![OLD; room];
            refuses(22, &mut buffer, |b| {
                write_flow(b, words, packet, count, entries)
            });
        }
    }
}

#[test]
fn counters_are_written() {
    for version in CountersVersion::ALL {
        let count = version.fields().count();
        let numbers: Vec<u64> = (1..=count as u64).collect();
        let sample = Sample::Counters(CountersSample {
            sequence_number: 5,
            source_id: 3,
            sampling_interval: 20,
            version,
            counters: numbers.clone(),
        });
        let number = version.number();
        let stated = encode_sample(&sample).octets;
        writes(&stated, |b| write_counters(b, 5, 3, 20, number, &numbers));
        for room in [0, 300] {
            let mut buffer = vec![OLD; room];
            let more = [&numbers[..], &[0]].concat();
            refuses(22, &mut buffer, |b| {
                write_counters(b, 5, 3, 20, number, &more)
            });
            let less = &numbers[1..];
            refuses(22, &mut buffer, |b| {
                write_counters(b, 5, 3, 20, number, less)
            });
        }
    }
    for version in [0, 8, u32::MAX] {
        refuses(22, &mut [OLD; 9], |b| {
            write_counters(b, 5, 3, 20, version, &[0; 6])
        });
    }
}

#[test]
fn counters_must_fit_their_width() {
    // The VLAN body: a word, a hyper, then words.
    for place in 0..6 {
        for number in [1 << 32, u64::MAX] {
            let mut numbers = [u64::from(u32::MAX); 6];
            numbers[place] = number;
            let mut buffer = [OLD; 48];
            if place == 1 {
                assert_eq!(write_counters(&mut buffer, 5, 3, 20, 7, &numbers), Ok(48));
                assert_eq!(buffer[24..32], number.to_be_bytes());
            } else {
                refuses(22, &mut buffer, |b| {
                    write_counters(b, 5, 3, 20, 7, &numbers)
                });
            }
        }
    }
}

/// The octets of packet data, written from their values.
fn packet_octets(data: &PacketData) -> Vec<u8> {
    let mut buffer = vec![OLD; 400];
    let length = match data {
        PacketData::Header(own) => {
            write_header(&mut buffer, own.protocol, own.frame_length, &own.header)
        }
        PacketData::Ipv4(own) => write_ipv4(&mut buffer, own),
        PacketData::Ipv6(own) => write_ipv6(&mut buffer, own),
    };
    buffer.truncate(length.expect("in the grammar"));
    assert_eq!(buffer, encode_packet_data(data).octets);
    buffer
}

/// The octets of path segments, written from their values.
fn segment_octets(segments: &[AsPath]) -> Vec<u8> {
    let mut all = Vec::new();
    for segment in segments {
        let mut buffer = vec![OLD; 1000];
        let length = write_segment(&mut buffer, segment.type_number(), segment.numbers());
        all.extend_from_slice(&buffer[..length.expect("in the grammar")]);
    }
    all
}

/// The octets of an extended entry, written from its values.
fn entry_octets(entry: &ExtendedData) -> Vec<u8> {
    let mut buffer = vec![OLD; 3000];
    let buffer = &mut buffer[..];
    let length = match entry {
        ExtendedData::Switch(own) => write_switch(buffer, own),
        ExtendedData::Router(own) => {
            write_router(buffer, &own.nexthop.into(), own.src_mask, own.dst_mask)
        }
        ExtendedData::Gateway(own) => write_gateway(
            buffer,
            [own.r#as, own.src_as, own.src_peer_as],
            own.dst_as_path.len() as u32,
            &segment_octets(&own.dst_as_path),
            &own.communities,
            own.localpref,
        ),
        ExtendedData::User(own) => write_user(buffer, &own.src_user, &own.dst_user),
        ExtendedData::Url(own) => write_url(buffer, own.direction.number(), &own.url),
    };
    let octets = buffer[..length.expect("in the grammar")].to_vec();
    assert_eq!(octets, encode_extended_data(entry).octets);
    octets
}

/// Appends a sample from its values and gives the new length.
fn append_values(buffer: &mut [u8], length: usize, sample: &Sample) -> Result<usize, u32> {
    match sample {
        Sample::Counters(own) => {
            let counters = GivenCounters {
                sequence: own.sequence_number,
                source: own.source_id,
                interval: own.sampling_interval,
                version: own.version.number(),
                numbers: &own.counters,
            };
            append_counters(buffer, 65_507, length, &counters)
        }
        Sample::Flow(own) => {
            let entries: Vec<u8> = own.extended_data.iter().flat_map(entry_octets).collect();
            let flow = GivenFlow {
                words: [
                    own.sequence_number,
                    own.source_id,
                    own.sampling_rate,
                    own.sample_pool,
                    own.drops,
                    own.input,
                    own.output,
                ],
                packet_octets: &packet_octets(&own.packet_data),
                entries: own.extended_data.len() as u32,
                entry_octets: &entries,
            };
            append_flow(buffer, 65_507, length, &flow)
        }
    }
}

#[test]
fn whole_datagrams_are_written_from_values() {
    for datagram in valid_datagrams(&mut Random::new(1)) {
        let mut buffer = vec![OLD; 65_507];
        let agent = datagram.agent_address.into();
        let begun = start(
            &mut buffer,
            65_507,
            &agent,
            datagram.sequence_number,
            datagram.uptime,
        );
        let mut length = begun.expect("a start");
        for sample in &datagram.samples {
            length = append_values(&mut buffer, length, sample).expect("room");
        }
        assert_eq!(buffer[..length], encode(&datagram).octets);
    }
}

#[test]
fn situations_are_answered_as_stated() {
    let mut wrong = Vec::new();
    for case in write_cases() {
        let before = &case.call.buffer;
        let (answer, after) = case.call.carried_out();
        let stated = case.stated.as_ref().map(Vec::len).map_err(|&number| number);
        let begin: &[u8] = case.stated.as_deref().unwrap_or_default();
        let buffer = [begin, before.get(begin.len()..).unwrap_or_default()].concat();
        if answer != stated || after != buffer {
            wrong.push(format!("{}: {answer:?}, stated {stated:?}", case.words));
        }
    }
    assert!(wrong.is_empty(), "{wrong:#?}");
}

/// The faults that each function can have together, by the number given: the
/// situations have every one of them.
#[test]
fn situations_have_every_answer_of_every_function() {
    let mut found = BTreeSet::new();
    for case in write_cases() {
        let name = format!("{:?}", case.call.write);
        let name = name
            .split(['(', ' '])
            .next()
            .unwrap_or_default()
            .to_string();
        found.insert((name, case.stated.err().unwrap_or(0)));
    }
    let mut stated = BTreeSet::new();
    let mut of = |names: &[&str], numbers: &[u32]| {
        for name in names {
            stated.extend(numbers.iter().map(|&number| (name.to_string(), number)));
        }
    };
    of(&["Start"], &[0, 21, 22]);
    of(
        &["Append", "AppendFlow", "AppendCounters"],
        &[0, 20, 21, 22, 23],
    );
    of(&["Ipv4", "Ipv6", "Switch", "User"], &[0, 20]);
    of(&["Flow", "Counters", "Header", "Router"], &[0, 20, 22]);
    of(&["Gateway", "Segment", "Url"], &[0, 20, 22]);
    assert_eq!(found, stated);
}
