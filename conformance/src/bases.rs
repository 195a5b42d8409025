//! The datagrams that are damaged. Together they have every form.

use crate::counters::CountersVersion;
use crate::encoder::{encode, Encoding};
use crate::parts::*;
use crate::random::Random;
use crate::value::*;

/// The datagrams with flow samples.
pub fn flow_bases(random: &mut Random) -> Vec<Encoding> {
    let datagrams = [
        header_base(random),
        gateway_base(random),
        string_base(random),
        empty_string_base(random),
    ];
    datagrams.iter().map(encode).collect()
}

/// One datagram for each counters version but VLAN, which stands in the
/// first flow base.
pub fn counter_bases(random: &mut Random) -> Vec<Encoding> {
    CountersVersion::ALL
        .into_iter()
        .filter(|&version| version != CountersVersion::Vlan)
        .map(|version| {
            let sample = counters(random, version);
            encode(&from(random, Address::IpV4([10, 0, 0, 7]), vec![sample]))
        })
        .collect()
}

/// A datagram from this address with these samples.
fn from(random: &mut Random, agent_address: Address, samples: Vec<Sample>) -> Datagram {
    Datagram {
        agent_address,
        ..datagram(random, samples)
    }
}

/// IPv4; a header of 5 octets, a switch and a router; VLAN counters behind.
fn header_base(random: &mut Random) -> Datagram {
    let data = PacketData::Header(SampledHeader {
        protocol: 1,
        frame_length: 64,
        header: vec![0xff; 5],
    });
    let entries = vec![
        switch(random),
        router(random, Address::IpV4([192, 0, 2, 1])),
    ];
    let sample = flow(random, data, entries);
    let behind = counters(random, CountersVersion::Vlan);
    from(random, Address::IpV4([10, 0, 0, 7]), vec![sample, behind])
}

/// IPv6; IPv4 data, a router and a gateway; behind them a flow sample with
/// an empty header.
fn gateway_base(random: &mut Random) -> Datagram {
    let gateway = ExtendedData::Gateway(ExtendedGateway {
        r#as: 64_512,
        src_as: 64_513,
        src_peer_as: 64_514,
        dst_as_path: vec![
            AsPath::AsSequence(vec![64_515, 64_516]),
            AsPath::AsSet(Vec::new()),
        ],
        communities: vec![0x0001_0002, 0xffff_ff01],
        localpref: 100,
    });
    let data = ipv4(random);
    let entries = vec![router(random, Address::IpV6([0x20; 16])), gateway];
    let sample = flow(random, data, entries);
    let empty = header(random, 13, 0);
    let behind = flow(random, empty, Vec::new());
    from(random, Address::IpV6([0xfd; 16]), vec![sample, behind])
}

/// IPv4; IPv6 data, users with 3 and 2 octets of padding, a URL with 1.
fn string_base(random: &mut Random) -> Datagram {
    let data = ipv6(random);
    let entries = vec![user(b"a", b"second"), url(UrlDirection::Src, b"/a/path")];
    let sample = flow(random, data, entries);
    from(random, Address::IpV4([10, 0, 0, 7]), vec![sample])
}

/// IPv6; a header without padding, empty strings, and a last string that
/// ends the datagram with padding.
fn empty_string_base(random: &mut Random) -> Datagram {
    let data = header(random, 11, 8);
    let entries = vec![
        url(UrlDirection::Dst, b""),
        user(b"", b""),
        user(b"four", b"v"),
    ];
    let sample = flow(random, data, entries);
    from(random, Address::IpV6([0xfd; 16]), vec![sample])
}
