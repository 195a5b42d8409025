//! Writing.
use crate::forms;
use std::net::{IpAddr, Ipv4Addr};
use troutgable::*;

/// Writes into buffers of enough room and of an octet less.
fn written(wanted: Vec<u8>, write: impl Fn(&mut [u8]) -> Result<usize, WriteRefusal>) {
    let mut buffer = vec![0xa5; wanted.len() + 3];
    assert_eq!(write(&mut buffer), Ok(wanted.len()));
    assert_eq!(buffer, [wanted.clone(), vec![0xa5; 3]].concat());
    let mut short = vec![0xa5; wanted.len() - 1];
    assert_eq!(write(&mut short), Err(WriteRefusal::NoRoom));
    assert_eq!(short, vec![0xa5; wanted.len() - 1]);
}

#[test]
fn started() {
    let mut buffer = [0xa5; 400];
    let agent = IpAddr::V6(forms::ipv6([101, 102, 103, 104]));
    let writer = Writer::start(&mut buffer, 300, agent, 105, 106).unwrap();
    assert_eq!(writer.octets(), forms::ipv6_head(0));
    assert_eq!(buffer[36..], [0xa5; 364]);
    let agent = IpAddr::V4(Ipv4Addr::new(10, 0, 0, 7));
    assert_eq!(
        Writer::start(&mut buffer, 36, agent, 1, 1000)
            .unwrap()
            .octets(),
        forms::ipv4_head(0)
    );
    assert_eq!(
        Writer::start(&mut buffer, 35, agent, 1, 1000).err(),
        Some(WriteRefusal::BadLimit)
    );
    assert_eq!(
        Writer::start(&mut buffer, 401, agent, 1, 1000).err(),
        Some(WriteRefusal::BadLimit)
    );
}

#[test]
fn appended() {
    let mut buffer = [0xa5; 400];
    let flow = forms::flow(forms::ipv4_data(), 1, forms::url());
    let mut writer = Writer::start(
        &mut buffer,
        200,
        IpAddr::V6(forms::ipv6([101, 102, 103, 104])),
        105,
        106,
    )
    .unwrap();
    assert_eq!(writer.append(&flow), Ok(36 + flow.len()));
    assert_eq!(
        writer.octets(),
        [forms::ipv6_head(1), flow.clone()].concat()
    );
    assert_eq!(writer.append(&forms::vlan()), Ok(84 + flow.len()));
    let both = [forms::ipv6_head(2), flow, forms::vlan()].concat();
    assert_eq!(writer.octets(), both);
    assert_eq!(writer.append(&forms::vlan()), Err(WriteRefusal::NoRoom));
    assert_eq!(
        writer.append(&forms::vlan()[..47]),
        Err(WriteRefusal::BadValue)
    );
    assert_eq!(writer.octets(), both);
}

#[test]
fn resumed() {
    let mut buffer = [forms::ipv4_head(0), vec![0xa5; 100]].concat();
    assert_eq!(
        Writer::resume(&mut buffer, 100, 24).append(&forms::vlan()),
        Ok(72)
    );
    assert_eq!(
        Writer::resume(&mut buffer, 100, 71).append(&forms::vlan()),
        Err(WriteRefusal::BadDatagram)
    );
    assert_eq!(
        Writer::resume(&mut buffer, 125, 72).append(&forms::vlan()),
        Err(WriteRefusal::BadLimit)
    );
    let mut far = Writer::resume(&mut buffer, 100, usize::MAX);
    assert_eq!(far.append(&forms::vlan()), Err(WriteRefusal::BadDatagram));
    assert_eq!(far.octets().len(), 124);
}

#[test]
fn packet_data() {
    let header = SampledHeader {
        protocol: 11,
        frame_length: 202,
        octets: b"head+",
    };
    written(forms::header_data(), |buffer| write_header(buffer, &header));
    for bad in [
        SampledHeader {
            protocol: 14,
            ..header
        },
        SampledHeader {
            octets: &[0; 257],
            ..header
        },
    ] {
        assert_eq!(
            write_header(&mut [0; 400], &bad),
            Err(WriteRefusal::BadValue)
        );
    }
    let ipv4 = Ipv4Data {
        length: 211,
        protocol: 212,
        source: Ipv4Addr::from(213),
        destination: Ipv4Addr::from(214),
        source_port: 215,
        destination_port: 216,
        tcp_flags: 217,
        tos: 218,
    };
    written(forms::ipv4_data(), |buffer| write_ipv4(buffer, &ipv4));
}

#[test]
fn ipv6_packet_data() {
    let ipv6 = Ipv6Data {
        length: 221,
        protocol: 222,
        source: forms::ipv6([223, 224, 225, 226]),
        destination: forms::ipv6([227, 228, 229, 230]),
        source_port: 231,
        destination_port: 232,
        tcp_flags: 233,
        priority: 234,
    };
    written(forms::ipv6_data(), |buffer| write_ipv6(buffer, &ipv6));
}

#[test]
fn entries() {
    let switch = Switch {
        source_vlan: 301,
        source_priority: 302,
        destination_vlan: 303,
        destination_priority: 304,
    };
    let router = Router {
        next_hop: IpAddr::V6(forms::ipv6([311, 312, 313, 314])),
        source_mask: 315,
        destination_mask: 316,
    };
    written(forms::switch(), |buffer| write_switch(buffer, &switch));
    written(forms::router(), |buffer| write_router(buffer, &router));
    written(forms::user(), |buffer| {
        write_user(buffer, b"anna", b"bernard")
    });
    written(forms::url(), |buffer| {
        write_url(buffer, Direction::Destination, b"/index")
    });
    written(forms::set(), |buffer| {
        write_segment(buffer, SegmentKind::Set, &[341, 342])
    });
    written(forms::sequence(), |buffer| {
        write_segment(buffer, SegmentKind::Sequence, &[351, 352, 353])
    });
}

#[test]
fn gateways() {
    let gateway = GatewayForm {
        router_as: 321,
        source_as: 322,
        source_peer_as: 323,
        segment_count: 2,
        segments: &[forms::set(), forms::sequence()].concat(),
        communities: &[331, 332, 333],
        local_preference: 334,
    };
    written(forms::gateway(), |buffer| write_gateway(buffer, &gateway));
    for segment_count in [0, 1, 3] {
        let bad = GatewayForm {
            segment_count,
            ..gateway
        };
        assert_eq!(
            write_gateway(&mut [0; 400], &bad),
            Err(WriteRefusal::BadValue)
        );
    }
}

#[test]
fn flow_samples() {
    let words = FlowWords {
        sequence_number: 401,
        source_id: SourceId(402),
        sampling_rate: 403,
        sample_pool: 404,
        drops: 405,
        input: 406,
        output: 407,
    };
    let (packet, entries) = (forms::ipv4_data(), [forms::switch(), forms::url()].concat());
    let wanted = forms::flow(packet.clone(), 2, entries.clone());
    written(wanted, |buffer| {
        write_flow(buffer, &words, &packet, 2, &entries)
    });
    assert_eq!(
        write_flow(&mut [0; 400], &words, &packet, 1, &entries),
        Err(WriteRefusal::BadValue)
    );
    assert_eq!(
        write_flow(&mut [0; 400], &words, &entries, 2, &packet),
        Err(WriteRefusal::BadValue)
    );
}

#[test]
fn counter_samples() {
    let words = CounterWords {
        sequence_number: 5,
        source_id: SourceId(0x0100_0064),
        interval: 20,
        version: 7,
    };
    let counters = [100, 501, 502, 503, 504, 505];
    written(forms::vlan(), |buffer| {
        write_counters(buffer, &words, &counters)
    });
    assert_eq!(
        write_counters(&mut [0; 400], &words, &counters[1..]),
        Err(WriteRefusal::BadValue)
    );
    let other = CounterWords {
        version: 0,
        ..words
    };
    assert_eq!(
        write_counters(&mut [0; 400], &other, &counters),
        Err(WriteRefusal::BadValue)
    );
}
