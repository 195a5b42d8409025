//! Every form of a datagram, put by hand with values that all differ.
use std::path::Path;

pub fn words(numbers: impl IntoIterator<Item = u32>) -> Vec<u8> {
    numbers.into_iter().flat_map(u32::to_be_bytes).collect()
}

/// A length word, the octets, and zero octets up to a multiple of four.
pub fn string(octets: &[u8]) -> Vec<u8> {
    let padding = octets.len().next_multiple_of(4) - octets.len();
    [
        words([octets.len() as u32]),
        octets.to_vec(),
        vec![0; padding],
    ]
    .concat()
}

/// An IPv4 agent 10.0.0.7, sequence number 1, uptime 1000, and a count of samples: 24 octets.
pub fn ipv4_head(samples: u32) -> Vec<u8> {
    words([4, 1, 0x0a00_0007, 1, 1000, samples])
}

/// An IPv6 agent with the words 101 to 104, sequence number 105, uptime 106, and a count of
/// samples: 36 octets.
pub fn ipv6_head(samples: u32) -> Vec<u8> {
    words([4, 2, 101, 102, 103, 104, 105, 106, samples])
}

pub fn header_data() -> Vec<u8> {
    [words([1, 11, 202]), string(b"head+")].concat()
}

pub fn ipv4_data() -> Vec<u8> {
    words([2].into_iter().chain(211..219))
}

pub fn ipv6_data() -> Vec<u8> {
    words([3].into_iter().chain(221..235))
}

pub fn switch() -> Vec<u8> {
    words([1, 301, 302, 303, 304])
}

pub fn router() -> Vec<u8> {
    words([2, 2, 311, 312, 313, 314, 315, 316])
}

pub fn gateway() -> Vec<u8> {
    [
        words([3, 321, 322, 323, 2]),
        set(),
        sequence(),
        words([3, 331, 332, 333, 334]),
    ]
    .concat()
}

pub fn user() -> Vec<u8> {
    [words([4]), string(b"anna"), string(b"bernard")].concat()
}

pub fn url() -> Vec<u8> {
    [words([5, 2]), string(b"/index")].concat()
}

pub fn set() -> Vec<u8> {
    words([1, 2, 341, 342])
}

pub fn sequence() -> Vec<u8> {
    words([2, 3, 351, 352, 353])
}

/// A flow sample with these packet data and so many extended entries.
pub fn flow(packet: Vec<u8>, count: u32, entries: Vec<u8>) -> Vec<u8> {
    [
        words([1, 401, 402, 403, 404, 405, 406, 407]),
        packet,
        words([count]),
        entries,
    ]
    .concat()
}

/// A VLAN counter sample: sequence number 5, source 01000064, interval 20, vlan 100, the rest 501
/// to 505.
pub fn vlan() -> Vec<u8> {
    words([2, 5, 0x0100_0064, 20, 7, 100, 0, 501, 502, 503, 504, 505])
}

/// An IPv6 address of four words.
pub fn ipv6(words: [u16; 4]) -> std::net::Ipv6Addr {
    let [a, b, c, d] = words;
    std::net::Ipv6Addr::new(0, a, 0, b, 0, c, 0, d)
}

/// The octets and the listing of a sample capture.
pub fn capture(name: &str) -> (Vec<u8>, String) {
    let folder = Path::new(env!("CARGO_MANIFEST_DIR")).join("../captures");
    let octets = std::fs::read(folder.join(format!("{name}.capture"))).expect("captures/ is there");
    let text =
        std::fs::read_to_string(folder.join(format!("{name}.txt"))).expect("captures/ is there");
    (octets, text)
}

/// The datagrams of a capture's records.
pub fn datagrams(capture: &[u8]) -> Vec<&[u8]> {
    let mut found = vec![];
    let mut rest = capture;
    while let [b's', b'F', high, low, behind @ ..] = rest {
        let (datagram, next) = behind.split_at(usize::from(*high) * 256 + usize::from(*low));
        found.push(datagram);
        rest = next;
    }
    found
}
