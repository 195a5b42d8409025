//! Values by the words that the library takes for them; `item_numbers` has the other way.

use conformance::value::{ExtendedSwitch, SampledIpv4, SampledIpv6};
use conformance::writer::GivenAddress;

/// The octets of an address given as four words.
pub fn address_octets(words: [u32; 4]) -> [u8; 16] {
    let join = |high: u128, word: u32| high << 32 | u128::from(word);
    words.into_iter().fold(0, join).to_be_bytes()
}

/// The address of a type and four words.
pub fn address_of([address_type, a, b, c, d]: [u32; 5]) -> GivenAddress {
    GivenAddress {
        address_type,
        octets: address_octets([a, b, c, d]),
    }
}

/// IPv4 data of 8 words.
pub fn ipv4_of(words: [u32; 8]) -> SampledIpv4 {
    let [length, protocol, src_ip, dst_ip, src_port, dst_port, tcp_flags, tos] = words;
    SampledIpv4 {
        length,
        protocol,
        src_ip: src_ip.to_be_bytes(),
        dst_ip: dst_ip.to_be_bytes(),
        src_port,
        dst_port,
        tcp_flags,
        tos,
    }
}

/// IPv6 data of 14 words.
pub fn ipv6_of(words: [u32; 14]) -> SampledIpv6 {
    let [length, protocol, a, b, c, d, e, f, g, h, src_port, dst_port, tcp_flags, priority] = words;
    SampledIpv6 {
        length,
        protocol,
        src_ip: address_octets([a, b, c, d]),
        dst_ip: address_octets([e, f, g, h]),
        src_port,
        dst_port,
        tcp_flags,
        priority,
    }
}

/// Switch data of 4 words.
pub fn switch_of([src_vlan, src_priority, dst_vlan, dst_priority]: [u32; 4]) -> ExtendedSwitch {
    ExtendedSwitch {
        src_vlan,
        src_priority,
        dst_vlan,
        dst_priority,
    }
}
