//! Addresses as the library has them: a type and four words.
use std::net::{IpAddr, Ipv4Addr, Ipv6Addr};

fn ipv6_words(address: Ipv6Addr) -> [u32; 4] {
    let whole = u128::from(address);
    [
        (whole >> 96) as u32,
        (whole >> 64) as u32,
        (whole >> 32) as u32,
        whole as u32,
    ]
}

/// The type, 1 for IPv4 or 2 for IPv6, and the words.
pub(crate) fn to_words(address: IpAddr) -> (u32, [u32; 4]) {
    match address {
        IpAddr::V4(v4) => (1, [u32::from(v4), 0, 0, 0]),
        IpAddr::V6(v6) => (2, ipv6_words(v6)),
    }
}

/// The words of an IPv6 address.
pub(crate) fn to_ipv6_words(address: Ipv6Addr) -> [u32; 4] {
    ipv6_words(address)
}

/// The IPv4 address that a word is.
pub(crate) fn ipv4(word: u64) -> Ipv4Addr {
    Ipv4Addr::from(word as u32)
}

/// The IPv6 address that four words are.
pub(crate) fn ipv6(words: [u64; 4]) -> Ipv6Addr {
    Ipv6Addr::from(
        words
            .iter()
            .fold(0u128, |whole, word| whole << 32 | u128::from(*word as u32)),
    )
}

/// The address of a type and words: IPv4 for type 1, else IPv6.
pub(crate) fn of(kind: u64, words: [u64; 4]) -> IpAddr {
    match kind {
        1 => IpAddr::V4(ipv4(words[0])),
        _ => IpAddr::V6(ipv6(words)),
    }
}
