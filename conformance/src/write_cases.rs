//! Situations of the writer, written by hand: calls with any of the faults 21,
//! 23, 22 and 20 together, of which the first in this order is given, and what
//! the buffer begins with where there is none.

use crate::cases::{beginning, octets_of};
use crate::form_write_cases::form_cases;
use crate::write_calls::*;
use crate::writer::GivenAddress;

/// A situation of the writer.
#[derive(Clone, Debug, PartialEq, Eq)]
pub struct WriteCase {
    /// What it is about.
    pub words: String,
    /// The call, with its buffer.
    pub call: WriteCall,
    /// The octets that the buffer then begins with, those behind them being
    /// as they were; or the refusal, which leaves all of them.
    pub stated: Result<Vec<u8>, u32>,
}

/// All situations.
pub fn write_cases() -> Vec<WriteCase> {
    [
        starts(),
        appends(),
        appends_for_ipv6_agents(),
        longest_appends(),
        full_limits(),
        form_cases(),
    ]
    .concat()
}

/// What a buffer holds where nothing is written.
pub const OLD: u8 = 0xa5;

/// The situation with a buffer of this length.
pub fn case(words: &str, room: usize, write: Write, stated: Result<Vec<u8>, u32>) -> WriteCase {
    WriteCase {
        words: words.into(),
        call: WriteCall {
            buffer: vec![OLD; room],
            write,
        },
        stated,
    }
}

/// A limit and the buffer's length; whether that is 21.
type Bounds = (usize, usize, bool);

/// Bounds at the ends of their range.
const BOUNDS: [Bounds; 10] = [
    (36, 36, false),
    (36, 40, false),
    (65_507, 65_507, false),
    (35, 36, true),
    (35, 35, true),
    (0, 0, true),
    (36, 35, true),
    (65_507, 65_506, true),
    (65_508, 65_508, true),
    (usize::MAX, 70, true),
];

/// 21, then 22: limits with agents of right and wrong types.
fn starts() -> Vec<WriteCase> {
    let octets: [u8; 16] = std::array::from_fn(|place| 0x10 + place as u8);
    let ipv4 = octets_of(&[4, 1, 0x1011_1213, 8, 9, 0]);
    let ipv6 = [octets_of(&[4, 2]), octets.to_vec(), octets_of(&[8, 9, 0])].concat();
    let mut cases = Vec::new();
    for (limit, room, bad_limit) in BOUNDS {
        for address_type in [1, 2, 0, 3, 0x0100_0001, u32::MAX] {
            let write = Write::Start {
                limit,
                agent: GivenAddress {
                    address_type,
                    octets,
                },
                sequence: 8,
                uptime: 9,
            };
            let stated = match (bad_limit, address_type) {
                (true, _) => Err(21),
                (false, 1) => Ok(ipv4.clone()),
                (false, 2) => Ok(ipv6.clone()),
                _ => Err(22),
            };
            let words = format!("start {limit} {room} {address_type}");
            cases.push(case(&words, room, write, stated));
        }
    }
    cases
}

/// A VLAN counter sample, 48 octets.
fn vlan() -> Vec<u8> {
    octets_of(&[2, 5, 0x0100_0064, 20, 7, 100, 0, 0, 0, 0, 0, 0])
}

/// Its values.
pub fn vlan_values() -> CountersValues {
    CountersValues {
        sequence: 5,
        source: 0x0100_0064,
        interval: 20,
        version: 7,
        numbers: vec![100, 0, 0, 0, 0, 0],
    }
}

/// The values of a flow sample with an empty header, 52 octets.
pub fn flow_values() -> FlowValues {
    FlowValues {
        words: [9, 3, 512, 4096, 0, 1, 2],
        packet_octets: octets_of(&[1, 1, 64, 0]),
        entries: 0,
        entry_octets: Vec::new(),
    }
}

/// The octets of that flow sample.
pub fn flow_octets() -> Vec<u8> {
    octets_of(&[1, 9, 3, 512, 4096, 0, 1, 2, 1, 1, 64, 0, 0])
}

/// Samples that are right, with their octets.
fn right_samples() -> Vec<(Appended, Vec<u8>)> {
    vec![
        (Appended::Octets(vlan()), vlan()),
        (Appended::Octets(flow_octets()), flow_octets()),
        (Appended::Counters(vlan_values()), vlan()),
        (Appended::Flow(flow_values()), flow_octets()),
    ]
}

/// 22: octets that are not exactly one sample, one of them longer than all
/// limits here, and values that are not in the grammar.
fn wrong_samples() -> Vec<Appended> {
    let (cut, mut longer, two) = (vlan()[..47].to_vec(), vlan(), vlan().repeat(2));
    longer.push(0);
    let long = [octets_of(&[3]), vec![7; 156]].concat();
    let mut all = [Vec::new(), cut, longer, two, octets_of(&[3]), long]
        .map(Appended::Octets)
        .to_vec();
    all.extend(wrong_flows().into_iter().map(Appended::Flow));
    all.extend(wrong_counters().into_iter().map(Appended::Counters));
    all
}

/// Flow samples whose packet data or entries are not as many as they say.
pub fn wrong_flows() -> Vec<FlowValues> {
    let with = |packet: &[u32], entries: u32, octets: &[u32]| FlowValues {
        packet_octets: octets_of(packet),
        entries,
        entry_octets: octets_of(octets),
        ..flow_values()
    };
    let (packet, switch) = ([1, 1, 64, 0], [1, 10, 0, 20, 0]);
    vec![
        with(&[], 0, &[]),
        with(&[1, 14, 64, 0], 0, &[]),
        with(&[1, 1, 64, 257], 0, &[]),
        with(&[4, 1, 64, 0], 0, &[]),
        with(&[1, 1, 64, 0, 0], 0, &[]),
        with(&packet, 1, &[]),
        with(&packet, u32::MAX, &[]),
        with(&packet, 0, &switch),
        with(&packet, 1, &[6, 10, 0, 20, 0]),
        with(&packet, 1, &switch[..4]),
    ]
}

/// Counter samples with a wrong version, number of counters or counter.
pub fn wrong_counters() -> Vec<CountersValues> {
    let with = |version: u32, numbers: &[u64]| CountersValues {
        version,
        numbers: numbers.to_vec(),
        ..vlan_values()
    };
    vec![
        with(0, &[100, 0, 0, 0, 0, 0]),
        with(8, &[100, 0, 0, 0, 0, 0]),
        with(1, &[100, 0, 0, 0, 0, 0]),
        with(7, &[100, 0, 0, 0, 0]),
        with(7, &[100, 0, 0, 0, 0, 0, 0]),
        with(7, &[1 << 32, 0, 0, 0, 0, 0]),
        with(7, &[100, 0, 0, 0, 0, 1 << 32]),
    ]
}

/// A buffer with case 3's datagram, 24 octets, as far as there is room.
fn started(room: usize) -> Vec<u8> {
    let mut buffer = beginning(0);
    buffer.resize(room.max(24), OLD);
    buffer.truncate(room);
    buffer
}

/// 21, 23, 22, 20: each sample, right or wrong, with each limit and buffer,
/// behind case 3's datagram, right or wrong.
fn appends() -> Vec<WriteCase> {
    let mut all = Vec::new();
    let right = right_samples().into_iter();
    let right = right.map(|(given, octets)| (given, Some(octets)));
    let wrong = wrong_samples().into_iter().map(|given| (given, None));
    for (given, octets) in right.chain(wrong) {
        // 76 has room for both samples, 75 and 71 for one and for none.
        for (limit, room) in [(76, 76), (76, 90), (75, 75), (71, 71), (71, 90), (36, 36)] {
            all.extend(appends_within(&given, &octets, (limit, room, false)));
        }
        for (limit, room) in [(35, 90), (36, 35), (76, 75), (71, 70), (0, 0)] {
            all.extend(appends_within(&given, &octets, (limit, room, true)));
        }
    }
    all
}

/// The appends with these bounds: to the datagram, to one whose version is
/// wrong, and with lengths that are not its own.
fn appends_within(given: &Appended, octets: &Option<Vec<u8>>, bounds: Bounds) -> Vec<WriteCase> {
    let (limit, room, bad_limit) = bounds;
    let mut cases = Vec::new();
    let lengths = [24, 0, 20, 23, 25, limit + 1, room + 1, usize::MAX];
    for (turn, length) in lengths.into_iter().chain([24]).enumerate() {
        let mut buffer = started(room);
        let bad_version = turn == 8;
        if let Some(octet) = buffer.get_mut(3).filter(|_| bad_version) {
            *octet = 5;
        }
        let stated = match octets {
            _ if bad_limit => Err(21),
            _ if length != 24 || bad_version => Err(23),
            None => Err(22),
            Some(octets) if 24 + octets.len() > limit => Err(20),
            Some(octets) => Ok([beginning(1), octets.clone()].concat()),
        };
        cases.push(WriteCase {
            words: format!("append within {limit} of {room} at {length}"),
            call: WriteCall {
                buffer,
                write: given.clone().write(limit, length),
            },
            stated,
        });
    }
    cases
}

/// An IPv6 agent's datagram without samples, 36 octets.
fn of_ipv6_agent(count: u32) -> Vec<u8> {
    let (first, last) = (octets_of(&[4, 2]), octets_of(&[1, 1000, count]));
    [first, vec![0xfd; 16], last].concat()
}

/// Appends for an IPv6 agent, whose count word lies at 32, as the first sample
/// and as the second.
fn appends_for_ipv6_agents() -> Vec<WriteCase> {
    let mut cases = Vec::new();
    for (given, octets) in right_samples() {
        for before in [Vec::new(), vlan()] {
            let count = u32::from(!before.is_empty());
            let datagram = [of_ipv6_agent(count), before.clone()].concat();
            let after = [of_ipv6_agent(count + 1), before, octets.clone()].concat();
            let mut buffer = datagram.clone();
            buffer.resize(after.len() + 5, OLD);
            cases.push(WriteCase {
                words: format!("append for an IPv6 agent at {}", datagram.len()),
                call: WriteCall {
                    buffer,
                    write: given.clone().write(after.len(), datagram.len()),
                },
                stated: Ok(after),
            });
        }
    }
    cases
}

/// A datagram of 65,456 octets, with one flow sample and a URL from 88 on.
fn long_datagram(count: u32) -> Vec<u8> {
    let head = [
        beginning(count),
        octets_of(&[1, 9, 3, 512, 4096, 0, 1, 2, 1, 1, 64, 0, 1]),
        octets_of(&[5, 1, 65_368]),
    ];
    [head.concat(), vec![b'/'; 65_368]].concat()
}

/// Appends to the longest datagrams: 65,456 and 48 are 65,504.
fn longest_appends() -> Vec<WriteCase> {
    let whole = [long_datagram(2), vlan()].concat();
    let mut cases = Vec::new();
    for (limit, room, stated) in [
        (65_504, 65_504, Ok(whole.clone())),
        (65_507, 65_507, Ok(whole.clone())),
        (65_507, 65_600, Ok(whole.clone())),
        (65_503, 65_507, Err(20)),
        (65_456, 65_507, Err(20)),
        (65_455, 65_507, Err(23)),
        (65_508, 65_600, Err(21)),
        (65_507, 65_506, Err(21)),
    ] {
        let mut buffer = long_datagram(1);
        buffer.resize(room, OLD);
        for (given, _) in right_samples().iter().step_by(2) {
            cases.push(WriteCase {
                words: format!("append within {limit} of {room} at 65456"),
                call: WriteCall {
                    buffer: buffer.clone(),
                    write: given.clone().write(limit, 65_456),
                },
                stated: stated.clone(),
            });
        }
    }
    cases
}

/// Datagrams that fill their limit, of both kinds of agents: 20 with any
/// sample, 22 before it, and 23 with a length that is one more.
fn full_limits() -> Vec<WriteCase> {
    let ipv6 = of_ipv6_agent(0);
    let one = [beginning(1), vlan()].concat();
    let mut cases = Vec::new();
    for datagram in [ipv6, one] {
        let length = datagram.len();
        for room in [length, length + 1, length + 60] {
            let mut buffer = datagram.clone();
            buffer.resize(room, OLD);
            let mut push = |given: &Appended, at: usize, number| {
                cases.push(WriteCase {
                    words: format!("append to a full limit of {length} at {at}"),
                    call: WriteCall {
                        buffer: buffer.clone(),
                        write: given.clone().write(length, at),
                    },
                    stated: Err(number),
                });
            };
            for (given, _) in right_samples() {
                push(&given, length, 20);
                push(&given, length + 1, 23);
            }
            for given in wrong_samples() {
                push(&given, length, 22);
                push(&given, length + 1, 23);
            }
        }
    }
    cases
}
