//! All 17 cases of the build scope, one test for each, through the public
//! functions. The octets are built here from the scope's words.

use conformance::attributes::{NULL, SOURCE_INTERFACE};
use conformance::check::check;
use conformance::counters::CountersVersion;
use conformance::cursor::Span;
use conformance::engine::{engine, Key};
use conformance::ledger::{enter, lend, Row, SampleNumbers, Source, Table};
use conformance::machine::Answer;
use conformance::reader::{read, Reading};
use conformance::value::{Address, CountersSample, PacketData, Sample};
use conformance::writer::{append, start, write_counters, GivenAddress};

/// Words as octets, big-endian.
fn words(values: &[u32]) -> Vec<u8> {
    values
        .iter()
        .flat_map(|value| value.to_be_bytes())
        .collect()
}

/// Version 4, agent 10.0.0.7, sequence 1, uptime 1000, and this count of
/// samples.
fn beginning(samples: u32) -> Vec<u8> {
    let mut octets = words(&[4, 1]);
    octets.extend([10, 0, 0, 7]);
    octets.extend(words(&[1, 1000, samples]));
    octets
}

/// The number and the place of the refusal that the octets get.
fn refusal(octets: &[u8]) -> (u32, usize) {
    let refusal = read(octets).expect_err("a refusal");
    (refusal.number(), refusal.place)
}

/// What is read from octets that are accepted.
fn accepted(octets: &[u8]) -> Reading {
    let reading = read(octets).expect("accepted");
    let datagram = &reading.datagram;
    assert_eq!(datagram.agent_address, Address::IpV4([10, 0, 0, 7]));
    assert_eq!((datagram.sequence_number, datagram.uptime), (1, 1000));
    reading
}

#[test]
fn case_01() {
    assert_eq!(refusal(&[]), (1, 0));
}

#[test]
fn case_02() {
    assert_eq!(refusal(&words(&[5])), (2, 0));
}

#[test]
fn case_03() {
    let octets = beginning(0);
    assert_eq!(octets.len(), 24);
    assert_eq!(accepted(&octets).datagram.samples, []);
}

#[test]
fn case_04() {
    assert_eq!(refusal(&beginning(0)[..23]), (1, 20));
}

#[test]
fn case_05() {
    let mut octets = beginning(0);
    octets.push(0);
    assert_eq!(refusal(&octets), (13, 24));
}

#[test]
fn case_06() {
    assert_eq!(refusal(&beginning(1)), (1, 24));
}

/// One VLAN counter sample behind case 3's beginning, with this counters
/// version. Its body is a word, a hyper and four words.
fn vlan(version: u32) -> Vec<u8> {
    let mut octets = beginning(1);
    octets.extend(words(&[2, 5, 0x0100_0064, 20, version]));
    octets.extend(words(&[100, 0, 0, 0, 0, 0, 0]));
    octets
}

#[test]
fn case_07() {
    let octets = vlan(7);
    assert_eq!(octets.len(), 72);
    let reading = accepted(&octets);
    let stated = CountersSample {
        sequence_number: 5,
        source_id: 0x0100_0064,
        sampling_interval: 20,
        version: CountersVersion::Vlan,
        counters: vec![100, 0, 0, 0, 0, 0],
    };
    assert_eq!(reading.datagram.samples, [Sample::Counters(stated)]);
    let place = Span {
        offset: 24,
        length: 48,
    };
    assert_eq!(reading.places[0].sample, place);
}

#[test]
fn case_08() {
    assert_eq!(refusal(&vlan(8)), (11, 40));
}

/// One flow sample behind case 3's beginning: a header of this length, these
/// octets with their padding, and no extended data.
fn header(length: u32, octets: &[u8]) -> Vec<u8> {
    let mut all = beginning(1);
    all.extend(words(&[1, 9, 3, 512, 4096, 0, 1, 2]));
    all.extend(words(&[1, 1, 64, length]));
    all.extend(octets);
    all.extend(words(&[0]));
    all
}

#[test]
fn case_09() {
    let octets = header(5, &[1, 2, 3, 4, 5, 0, 9, 0]);
    assert_eq!((octets[76], octets[77], octets[78]), (5, 0, 9));
    assert_eq!(refusal(&octets), (12, 78));
    accepted(&header(5, &[1, 2, 3, 4, 5, 0, 0, 0]));
}

#[test]
fn case_10() {
    assert_eq!(refusal(&header(257, &[7; 260])), (7, 68));
    let reading = accepted(&header(256, &[7; 256]));
    let Sample::Flow(flow) = &reading.datagram.samples[0] else {
        panic!("a flow sample")
    };
    let PacketData::Header(data) = &flow.packet_data else {
        panic!("header data")
    };
    assert_eq!(data.header, [7; 256]);
}

#[test]
fn case_11() {
    let mut sample = [0; 160];
    let numbers: Vec<u64> = (1..=32).collect();
    assert_eq!(write_counters(&mut sample, 5, 3, 20, 2, &numbers), Ok(160));
    let mut buffer = [0xa5; 1400];
    let agent = GivenAddress::from(Address::IpV4([10, 0, 0, 7]));
    assert_eq!(start(&mut buffer, 1400, &agent, 1, 1000), Ok(24));
    for count in 0..8 {
        let length = 24 + 160 * count;
        assert_eq!(append(&mut buffer, 1400, length, &sample), Ok(length + 160));
    }
    assert_eq!(accepted(&buffer[..1304]).datagram.samples.len(), 8);
    let before = buffer;
    assert_eq!(append(&mut buffer, 1400, 1304, &sample), Err(20));
    assert_eq!(buffer, before);
    assert_eq!(buffer[..1304], [beginning(8), sample.repeat(8)].concat());
    assert_eq!(buffer[1304..], [0xa5; 96]);
}

/// A rule record: attribute, opcode, mask, value, parameter, home and depth.
/// No items are held.
fn rule(test: (u8, u32, u32), opcode: u8, parameter: u8, home: u8, depth: u8) -> Vec<u8> {
    let (attribute, mask, value) = test;
    let mut record = vec![0x52, 0x75, attribute, opcode];
    record.extend(words(&[mask, value]));
    record.extend([parameter, home, depth, 0]);
    record
}

/// Null & 0 = 0.
const ALWAYS: (u8, u32, u32) = (NULL, 0, 0);

/// Opcodes.
const IGNORE: u8 = 1;
const COUNT: u8 = 3;
const RETURN: u8 = 5;
const GOSUB: u8 = 6;
const GOTO: u8 = 10;

/// A flow sample with an empty header.
fn flow_sample() -> Vec<u8> {
    words(&[1, 9, 3, 512, 4096, 0, 1, 2, 1, 1, 64, 0, 0])
}

/// The answer and the rules come to; the key is all zero.
fn answered(set: &[u8]) -> (Answer, u64) {
    assert!(check(set).is_ok());
    let outcome = engine(set, &flow_sample()).expect("an answer");
    assert_eq!(outcome.key, Key::default());
    (outcome.answer, outcome.rules)
}

/// The number of the refusal and the rule named, by check and engine alike.
fn refused(set: &[u8]) -> (u32, usize) {
    let refusal = check(set).expect_err("a refusal");
    assert_eq!(engine(set, &flow_sample()), Err(refusal));
    (refusal.number, refusal.rule)
}

#[test]
fn case_12() {
    let set = rule(ALWAYS, IGNORE, 0, 0, 0);
    assert_eq!(answered(&set), (Answer::Ignore, 1));
}

#[test]
fn case_13() {
    assert_eq!(refused(&rule(ALWAYS, GOTO, 1, 0, 0)), (37, 1));
}

#[test]
fn case_14() {
    let tested = rule((SOURCE_INTERFACE, 0, 1), COUNT, 0, 0, 0);
    assert_eq!(answered(&tested), (Answer::NoMatch, 1));
    let null = rule((NULL, 0, 1), COUNT, 0, 0, 0);
    assert_eq!(answered(&null), (Answer::Count, 1));
}

/// Gosub 3; Ignore; Return with this parameter (home 3, depth 1).
fn subroutine(parameter: u8) -> Vec<u8> {
    [
        rule(ALWAYS, GOSUB, 3, 0, 0),
        rule(ALWAYS, IGNORE, 0, 0, 0),
        rule(ALWAYS, RETURN, parameter, 3, 1),
    ]
    .concat()
}

#[test]
fn case_15() {
    assert_eq!(answered(&subroutine(1)), (Answer::Ignore, 3));
}

#[test]
fn case_16() {
    assert_eq!(refused(&subroutine(3)), (37, 3));
}

#[test]
fn case_17() {
    let source = Source {
        address_type: 1,
        address: [10, 0, 0, 7, 0, 0, 0, 0, 0, 0, 0, 0, 0, 0, 0, 0],
        id: 3,
    };
    let sample = |sequence, pool| SampleNumbers {
        source,
        sequence,
        pool,
    };
    let samples = [sample(7, 4_294_967_290), sample(9, 10)];
    let stated = Row {
        used: true,
        source,
        sequence: 9,
        pool: 10,
        lost_total: 1,
        pool_total: 16,
    };
    let (mut table, mut row) = (Table::default(), Row::default());
    for sample in &samples {
        assert_eq!(enter(&mut table, sample), Ok(()));
        assert_eq!(lend(&mut row, sample), Ok(()));
    }
    assert_eq!((table.rows[0], row), (stated, stated));
    assert!(table.rows[1..].iter().all(|row| !row.used));
}
