//! Samples appended from their values.
use crate::forms;
use std::net::{IpAddr, Ipv4Addr};
use troutgable::*;

/// A limit that all samples here fit in.
const LIMIT: usize = 300;

const WORDS: FlowWords = FlowWords {
    sequence_number: 401,
    source_id: SourceId(402),
    sampling_rate: 403,
    sample_pool: 404,
    drops: 405,
    input: 406,
    output: 407,
};

const HEADER: SampledHeader<'static> = SampledHeader {
    protocol: 11,
    frame_length: 202,
    octets: b"head+",
};

const IPV4: Ipv4Data = Ipv4Data {
    length: 211,
    protocol: 212,
    source: Ipv4Addr::new(0, 0, 0, 213),
    destination: Ipv4Addr::new(0, 0, 0, 214),
    source_port: 215,
    destination_port: 216,
    tcp_flags: 217,
    tos: 218,
};

fn ipv6() -> Ipv6Data {
    Ipv6Data {
        length: 221,
        protocol: 222,
        source: forms::ipv6([223, 224, 225, 226]),
        destination: forms::ipv6([227, 228, 229, 230]),
        source_port: 231,
        destination_port: 232,
        tcp_flags: 233,
        priority: 234,
    }
}

const COUNTER: CounterWords = CounterWords {
    sequence_number: 5,
    source_id: SourceId(0x0100_0064),
    interval: 20,
    version: 7,
};

const COUNTERS: [u64; 6] = [100, 501, 502, 503, 504, 505];

fn entries() -> Vec<u8> {
    [forms::switch(), forms::url()].concat()
}

/// An append of a sample.
type Append<'a> = &'a dyn Fn(&mut Writer<'_>) -> Result<usize, WriteRefusal>;

/// Calls an append on the datagram that these octets begin with, in a buffer that has two octets
/// more than the limit: the answer, the length that the writer has then, and the buffer.
fn called(
    append: Append<'_>,
    datagram: &[u8],
    limit: usize,
    length: usize,
) -> (Result<usize, WriteRefusal>, usize, Vec<u8>) {
    let mut buffer = datagram.to_vec();
    buffer.resize(LIMIT + 2, 0xa5);
    let mut writer = Writer::resume(&mut buffer, limit, length);
    let answer = append(&mut writer);
    let after = writer.octets().len();
    (answer, after, buffer)
}

/// A call is refused so, and the buffer and the length stay.
fn refused(append: Append<'_>, datagram: &[u8], limit: usize, length: usize, why: WriteRefusal) {
    let mut before = datagram.to_vec();
    before.resize(LIMIT + 2, 0xa5);
    let stays = length.min(before.len());
    let got = called(append, datagram, limit, length);
    assert_eq!(got, (Err(why), stays, before));
}

/// The append puts the sample behind the datagram where the limit has room for it. The wrong ones
/// have a value that is not in the grammar, which is refused before want of room is.
fn appended(sample: Vec<u8>, append: Append<'_>, wrong: &[Append<'_>]) {
    let head = forms::ipv6_head(0);
    let end = 36 + sample.len();
    let mut wanted = [forms::ipv6_head(1), sample].concat();
    wanted.resize(LIMIT + 2, 0xa5);
    for limit in [end, LIMIT] {
        let got = called(append, &head, limit, 36);
        assert_eq!(got, (Ok(end), end, wanted.clone()));
    }
    refused(append, &head, end - 1, 36, WriteRefusal::NoRoom);
    misplaced(append);
    for wrong in wrong {
        refused(*wrong, &head, LIMIT, 36, WriteRefusal::BadValue);
        refused(*wrong, &head, end - 1, 36, WriteRefusal::BadValue);
        misplaced(*wrong);
    }
}

/// A wrong limit is refused before a wrong datagram, and both before all else.
fn misplaced(append: Append<'_>) {
    let head = forms::ipv6_head(0);
    for limit in [0, 35, LIMIT + 3, 65508, usize::MAX] {
        refused(append, &head, limit, 36, WriteRefusal::BadLimit);
        refused(append, &head, limit, 35, WriteRefusal::BadLimit);
    }
    for length in [0, 35, 37, LIMIT + 1, LIMIT + 3, usize::MAX] {
        refused(append, &head, LIMIT, length, WriteRefusal::BadDatagram);
        refused(append, &head, 36, length, WriteRefusal::BadDatagram);
    }
    let counted = forms::ipv6_head(1);
    refused(append, &counted, LIMIT, 36, WriteRefusal::BadDatagram);
}

#[test]
fn headers() {
    let both = entries();
    let (mut protocol, mut long) = (HEADER, HEADER);
    protocol.protocol = 14;
    long.octets = &[0; 257];
    appended(
        forms::flow(forms::header_data(), 2, entries()),
        &|writer| writer.append_header(&WORDS, &HEADER, 2, &both),
        &[
            &|writer| writer.append_header(&WORDS, &protocol, 2, &both),
            &|writer| writer.append_header(&WORDS, &long, 2, &both),
            &|writer| writer.append_header(&WORDS, &HEADER, 3, &both),
        ],
    );
}

#[test]
fn ipv4_packets() {
    let both = entries();
    appended(
        forms::flow(forms::ipv4_data(), 2, entries()),
        &|writer| writer.append_ipv4(&WORDS, &IPV4, 2, &both),
        &[
            &|writer| writer.append_ipv4(&WORDS, &IPV4, 1, &both),
            &|writer| writer.append_ipv4(&WORDS, &IPV4, 2, &both[1..]),
            &|writer| writer.append_ipv4(&WORDS, &IPV4, 2, &[]),
        ],
    );
    appended(
        forms::flow(forms::ipv4_data(), 0, vec![]),
        &|writer| writer.append_ipv4(&WORDS, &IPV4, 0, &[]),
        &[&|writer| writer.append_ipv4(&WORDS, &IPV4, 0, &[0; 4])],
    );
}

#[test]
fn ipv6_packets() {
    let both = entries();
    appended(
        forms::flow(forms::ipv6_data(), 2, entries()),
        &|writer| writer.append_ipv6(&WORDS, &ipv6(), 2, &both),
        &[
            &|writer| writer.append_ipv6(&WORDS, &ipv6(), 0, &both),
            &|writer| writer.append_ipv6(&WORDS, &ipv6(), 2, &both[..both.len() - 1]),
        ],
    );
}

#[test]
fn counters() {
    let (mut version, mut wide) = (COUNTER, COUNTERS);
    version.version = 8;
    wide[2] = 1 << 32;
    appended(
        forms::vlan(),
        &|writer| writer.append_counters(&COUNTER, &COUNTERS),
        &[
            &|writer| writer.append_counters(&version, &COUNTERS),
            &|writer| writer.append_counters(&COUNTER, &wide),
            &|writer| writer.append_counters(&COUNTER, &COUNTERS[1..]),
        ],
    );
}

#[test]
fn one_behind_the_other() {
    let mut buffer = [0xa5; 700];
    let agent = IpAddr::V6(forms::ipv6([101, 102, 103, 104]));
    let mut writer = Writer::start(&mut buffer, 600, agent, 105, 106).unwrap();
    let entries = entries();
    writer.append_header(&WORDS, &HEADER, 2, &entries).unwrap();
    writer.append_ipv4(&WORDS, &IPV4, 0, &[]).unwrap();
    writer.append_ipv6(&WORDS, &ipv6(), 2, &entries).unwrap();
    writer.append_counters(&COUNTER, &COUNTERS).unwrap();
    writer.append(&forms::vlan()).unwrap();
    let wanted = [
        forms::ipv6_head(5),
        forms::flow(forms::header_data(), 2, entries.clone()),
        forms::flow(forms::ipv4_data(), 0, vec![]),
        forms::flow(forms::ipv6_data(), 2, entries),
        forms::vlan(),
        forms::vlan(),
    ]
    .concat();
    assert_eq!(writer.octets(), wanted);
    assert_eq!(buffer[wanted.len()..], vec![0xa5; 700 - wanted.len()]);
}
