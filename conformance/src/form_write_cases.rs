//! Situations of the writers of values alone, written by hand: 22 for a value
//! that is not in the grammar, whatever the buffer; then 20 for a buffer that
//! is too short.

use crate::cases::octets_of;
use crate::value::*;
use crate::write_calls::Write;
use crate::write_cases::*;
use crate::writer::GivenAddress;

/// All of them.
pub fn form_cases() -> Vec<WriteCase> {
    let right = right_forms().into_iter().flat_map(with_any_room);
    right.chain(wrong_cases()).collect()
}

/// The form with buffers that are too short, just long enough, and longer.
fn with_any_room((write, octets): (Write, Vec<u8>)) -> Vec<WriteCase> {
    let needed = octets.len();
    let mut cases = Vec::new();
    for room in [0, 1, needed - 4, needed - 1] {
        let words = format!("{room} of {needed} octets");
        cases.push(case(&words, room, write.clone(), Err(20)));
    }
    for room in [needed, needed + 1, needed + 40] {
        let words = format!("{room} octets for {needed}");
        cases.push(case(&words, room, write.clone(), Ok(octets.clone())));
    }
    cases
}

/// Values that are not in the grammar, with any buffer.
fn wrong_cases() -> Vec<WriteCase> {
    let mut cases = Vec::new();
    for write in wrong_forms() {
        for room in [0, 1, 11, 19, 40, 400] {
            cases.push(case("not in the grammar", room, write.clone(), Err(22)));
        }
    }
    cases
}

/// Every form with right values, and its octets.
fn right_forms() -> Vec<(Write, Vec<u8>)> {
    let mut forms = vec![
        (Write::Flow(flow_values()), flow_octets()),
        (
            Write::Counters(vlan_values()),
            octets_of(&[2, 5, 0x0100_0064, 20, 7, 100, 0, 0, 0, 0, 0, 0]),
        ),
    ];
    forms.extend(right_packets());
    forms.extend(right_entries());
    forms
}

fn header(protocol: u32, length: usize) -> Write {
    Write::Header {
        protocol,
        frame_length: 64,
        header: vec![9; length],
    }
}

fn right_packets() -> Vec<(Write, Vec<u8>)> {
    let ipv4 = SampledIpv4 {
        length: 40,
        protocol: 6,
        src_ip: [10, 0, 0, 1],
        dst_ip: [10, 0, 0, 2],
        src_port: 80,
        dst_port: 81,
        tcp_flags: 2,
        tos: 3,
    };
    let ipv6 = SampledIpv6 {
        length: 40,
        protocol: 6,
        src_ip: [1; 16],
        dst_ip: [2; 16],
        src_port: 80,
        dst_port: 81,
        tcp_flags: 2,
        priority: 3,
    };
    let words = [2, 40, 6, 0x0a00_0001, 0x0a00_0002, 80, 81, 2, 3];
    let (first, last) = (octets_of(&[3, 40, 6]), octets_of(&[80, 81, 2, 3]));
    let longest = [octets_of(&[1, 13, 64, 256]), vec![9; 256]].concat();
    vec![
        (Write::Ipv4(ipv4), octets_of(&words)),
        (
            Write::Ipv6(ipv6),
            [first, vec![1; 16], vec![2; 16], last].concat(),
        ),
        (header(1, 0), octets_of(&[1, 1, 64, 0])),
        (header(1, 1), octets_of(&[1, 1, 64, 1, 0x0900_0000])),
        (header(13, 3), octets_of(&[1, 13, 64, 3, 0x0909_0900])),
        (header(13, 256), longest),
    ]
}

fn router(address_type: u32) -> Write {
    Write::Router {
        nexthop: GivenAddress {
            address_type,
            octets: [7; 16],
        },
        src_mask: 24,
        dst_mask: 25,
    }
}

fn gateway(segments: u32, words: &[u32]) -> Write {
    Write::Gateway {
        words: [100, 101, 102],
        segments,
        segment_octets: octets_of(words),
        communities: vec![104, 105],
        local_preference: 106,
    }
}

fn segment(kind: u32) -> Write {
    Write::Segment {
        kind,
        numbers: vec![103, 104],
    }
}

fn url(direction: u32) -> Write {
    Write::Url {
        direction,
        url: b"/ab".to_vec(),
    }
}

fn right_entries() -> Vec<(Write, Vec<u8>)> {
    let switch = Write::Switch(ExtendedSwitch {
        src_vlan: 10,
        src_priority: 0,
        dst_vlan: 20,
        dst_priority: 1,
    });
    let user = Write::User {
        src_user: b"a".to_vec(),
        dst_user: b"bcde".to_vec(),
    };
    let sevens = 0x0707_0707;
    vec![
        (switch, octets_of(&[1, 10, 0, 20, 1])),
        (router(1), octets_of(&[2, 1, sevens, 24, 25])),
        (
            router(2),
            octets_of(&[2, 2, sevens, sevens, sevens, sevens, 24, 25]),
        ),
        (
            gateway(0, &[]),
            octets_of(&[3, 100, 101, 102, 0, 2, 104, 105, 106]),
        ),
        (
            gateway(2, &[2, 1, 103, 1, 0]),
            octets_of(&[3, 100, 101, 102, 2, 2, 1, 103, 1, 0, 2, 104, 105, 106]),
        ),
        (segment(1), octets_of(&[1, 2, 103, 104])),
        (segment(2), octets_of(&[2, 2, 103, 104])),
        (user, octets_of(&[4, 1, 0x6100_0000, 4, 0x6263_6465])),
        (url(1), octets_of(&[5, 1, 3, 0x2f61_6200])),
        (url(2), octets_of(&[5, 2, 3, 0x2f61_6200])),
    ]
}

/// Every form that can have a wrong value, with one.
fn wrong_forms() -> Vec<Write> {
    let mut all: Vec<Write> = wrong_flows().into_iter().map(Write::Flow).collect();
    all.extend(wrong_counters().into_iter().map(Write::Counters));
    let high = 1 << 24 | 1;
    all.extend([0, 14, high, u32::MAX].map(|protocol| header(protocol, 4)));
    all.extend([header(1, 257), header(1, 300), header(0, 257)]);
    all.extend([0, 3, high, u32::MAX].map(router));
    all.extend([0, 3, high, u32::MAX].map(segment));
    all.extend([0, 3, high, u32::MAX].map(url));
    all.extend([
        gateway(1, &[]),
        gateway(0, &[2, 0]),
        gateway(1, &[3, 0]),
        gateway(1, &[2, 1]),
        gateway(u32::MAX, &[2, 0]),
        gateway(1, &[2, u32::MAX, 103]),
    ]);
    all
}
