//! Reading.
use crate::forms;
use std::net::{IpAddr, Ipv4Addr};
use troutgable::*;

fn refused(refusal: Result<impl Sized, Refusal>, reason: Reason, place: usize) {
    assert_eq!(refusal.err(), Some(Refusal { reason, place }));
}

fn words_401() -> FlowWords {
    FlowWords {
        sequence_number: 401,
        source_id: SourceId(402),
        sampling_rate: 403,
        sample_pool: 404,
        drops: 405,
        input: 406,
        output: 407,
    }
}

fn flow_of(octets: &[u8]) -> FlowSample<'_> {
    match read_sample(octets, 0) {
        Ok(Sample::Flow(flow)) => flow,
        other => panic!("{other:?}"),
    }
}

#[test]
fn heads() {
    let flow = forms::flow(forms::ipv4_data(), 0, vec![]);
    let octets = [forms::ipv6_head(2), flow.clone(), forms::vlan()].concat();
    let head = read(&octets).unwrap();
    assert_eq!(head.agent, IpAddr::V6(forms::ipv6([101, 102, 103, 104])));
    assert_eq!(
        (head.sequence_number, head.uptime, head.sample_count),
        (105, 106, 2)
    );
    let samples: Vec<Sample> = head.samples().collect();
    assert_eq!(
        samples.iter().map(Sample::offset).collect::<Vec<_>>(),
        [36, 36 + flow.len()]
    );
    assert_eq!(
        samples
            .iter()
            .map(|sample| sample.octets().to_vec())
            .collect::<Vec<_>>(),
        [flow, forms::vlan()]
    );
    assert_eq!(
        samples.iter().map(Sample::length).sum::<usize>() + 36,
        octets.len()
    );
    let octets = forms::ipv4_head(0);
    let head = read(&octets).unwrap();
    assert_eq!(head.agent, IpAddr::V4(Ipv4Addr::new(10, 0, 0, 7)));
    assert_eq!(
        (head.sequence_number, head.uptime, head.samples().count()),
        (1, 1000, 0)
    );
}

#[test]
fn refused_datagrams() {
    refused(read(&[]), Reason::CutItem, 0);
    refused(read(&forms::words([5])), Reason::Version, 0);
    refused(read(&forms::words([4, 3])), Reason::AddressType, 4);
    refused(read(&forms::ipv4_head(1)), Reason::CutItem, 24);
    refused(read(&forms::ipv4_head(0)[..23]), Reason::CutItem, 20);
    refused(
        read(&[forms::ipv4_head(1), forms::words([3])].concat()),
        Reason::SampleType,
        24,
    );
    refused(
        read(&[forms::ipv4_head(0), vec![0]].concat()),
        Reason::TrailingOctets,
        24,
    );
    refused(read(&[0; 65508]), Reason::TooLong, 0);
}

#[test]
fn flow_samples() {
    let octets = forms::flow(forms::header_data(), 0, vec![]);
    let flow = flow_of(&octets);
    let header = SampledHeader {
        protocol: 11,
        frame_length: 202,
        octets: b"head+",
    };
    assert_eq!(
        (flow.words, flow.packet),
        (words_401(), PacketData::Header(header))
    );
    assert_eq!(
        (flow.offset, flow.octets, flow.extended_count),
        (0, &octets[..], 0)
    );
}

#[test]
fn ip_packet_data() {
    let ipv4 = Ipv4Data {
        length: 211,
        protocol: 212,
        source: Ipv4Addr::from(213),
        destination: Ipv4Addr::from(214),
        source_port: 215,
        destination_port: 216,
        tcp_flags: 217,
        tos: 218,
    };
    let ipv6 = Ipv6Data {
        length: 221,
        protocol: 222,
        source: forms::ipv6([223, 224, 225, 226]),
        destination: forms::ipv6([227, 228, 229, 230]),
        source_port: 231,
        destination_port: 232,
        tcp_flags: 233,
        priority: 234,
    };
    assert_eq!(
        flow_of(&forms::flow(forms::ipv4_data(), 0, vec![])).packet,
        PacketData::Ipv4(ipv4)
    );
    assert_eq!(
        flow_of(&forms::flow(forms::ipv6_data(), 0, vec![])).packet,
        PacketData::Ipv6(ipv6)
    );
}

#[test]
fn counter_samples() {
    let mut octets = [vec![9; 6], forms::vlan(), vec![9]].concat();
    let Ok(Sample::Counter(counter)) = read_sample(&octets, 6) else {
        panic!()
    };
    let words = CounterWords {
        sequence_number: 5,
        source_id: SourceId(0x0100_0064),
        interval: 20,
        version: 7,
    };
    assert_eq!(
        (counter.words, counter.counters()),
        (words, &[100, 501, 502, 503, 504, 505][..])
    );
    assert_eq!((counter.offset, counter.octets), (6, &forms::vlan()[..]));
    octets[25] = 8;
    refused(read_sample(&octets, 6), Reason::CountersVersion, 22);
}

#[test]
fn refused_samples() {
    let mut octets = forms::flow(forms::header_data(), 1, vec![]);
    refused(read_sample(&octets, 0), Reason::CutItem, 60);
    refused(
        read_sample(&octets, usize::MAX),
        Reason::CutItem,
        usize::MAX,
    );
    octets[55] = 1;
    refused(read_sample(&octets, 0), Reason::Padding, 55);
    octets[46] = 1;
    refused(read_sample(&octets, 0), Reason::HeaderLength, 44);
    octets[39] = 14;
    refused(read_sample(&octets, 0), Reason::HeaderProtocol, 36);
    octets[35] = 4;
    refused(read_sample(&octets, 0), Reason::PacketDataType, 32);
}

#[test]
fn extended_entries() {
    let entries = [
        forms::switch(),
        forms::router(),
        forms::gateway(),
        forms::user(),
        forms::url(),
    ]
    .concat();
    let octets = forms::flow(forms::ipv4_data(), 5, entries);
    let found: Vec<Extended> = flow_of(&octets).extended().collect();
    let [Extended::Switch(switch), Extended::Router(router), Extended::Gateway(_), Extended::User(user), Extended::Url(url)] =
        found[..]
    else {
        panic!("{found:?}")
    };
    assert_eq!((switch.source_vlan, switch.source_priority), (301, 302));
    assert_eq!(
        (switch.destination_vlan, switch.destination_priority),
        (303, 304)
    );
    assert_eq!(
        router.next_hop,
        IpAddr::V6(forms::ipv6([311, 312, 313, 314]))
    );
    assert_eq!((router.source_mask, router.destination_mask), (315, 316));
    assert_eq!(
        (user.source, user.destination),
        (&b"anna"[..], &b"bernard"[..])
    );
    assert_eq!(
        (url.direction, url.url),
        (Direction::Destination, &b"/index"[..])
    );
}

#[test]
fn gateways() {
    let octets = [vec![7; 3], forms::gateway()].concat();
    let Ok((Extended::Gateway(gateway), next)) = read_extended(&octets, 3) else {
        panic!()
    };
    assert_eq!(next, octets.len());
    assert_eq!(
        (gateway.router_as, gateway.source_as, gateway.source_peer_as),
        (321, 322, 323)
    );
    assert_eq!(
        gateway.communities.clone().collect::<Vec<_>>(),
        [331, 332, 333]
    );
    assert_eq!(
        (
            gateway.communities.len(),
            gateway.local_preference,
            gateway.segment_count
        ),
        (3, 334, 2)
    );
    let path: Vec<_> = gateway
        .segments()
        .map(|segment| (segment.kind, segment.numbers.collect::<Vec<_>>()))
        .collect();
    assert_eq!(
        path,
        [
            (SegmentKind::Set, vec![341, 342]),
            (SegmentKind::Sequence, vec![351, 352, 353])
        ]
    );
}

#[test]
fn refused_entries() {
    refused(
        read_extended(&forms::words([6]), 0),
        Reason::ExtendedType,
        0,
    );
    refused(read_extended(&forms::words([6]), 9), Reason::CutItem, 9);
    refused(
        read_extended(&forms::words([5, 3]), 0),
        Reason::UrlDirection,
        4,
    );
    refused(
        read_extended(&forms::words([2, 0]), 0),
        Reason::AddressType,
        4,
    );
    refused(
        read_extended(&forms::words([3, 1, 1, 1, 1, 3]), 0),
        Reason::SegmentType,
        20,
    );
    refused(read_segment(&forms::words([3]), 0), Reason::SegmentType, 0);
    refused(
        read_segment(&forms::sequence()[..17], 0),
        Reason::CutItem,
        16,
    );
    let (segment, next) = read_segment(&[forms::set(), forms::sequence()].concat(), 16)
        .map(|(s, n)| (s.kind, n))
        .unwrap();
    assert_eq!((segment, next), (SegmentKind::Sequence, 36));
}
