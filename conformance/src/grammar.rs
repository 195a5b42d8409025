//! The fixed numbers of the grammar, named as in RFC 3176, section 4.

/// The only datagram version.
pub const VERSION4: u32 = 4;

/// The address type with 4 octets.
pub const IP_V4: u32 = 1;
/// The address type with 16 octets.
pub const IP_V6: u32 = 2;

/// The type of flow samples.
pub const FLOWSAMPLE: u32 = 1;
/// The type of counter samples.
pub const COUNTERSSAMPLE: u32 = 2;

/// The type of header packet data.
pub const HEADER: u32 = 1;
/// The type of IPv4 packet data.
pub const IPV4: u32 = 2;
/// The type of IPv6 packet data.
pub const IPV6: u32 = 3;

/// The least header protocol.
pub const FIRST_HEADER_PROTOCOL: u32 = 1;
/// The greatest header protocol.
pub const LAST_HEADER_PROTOCOL: u32 = 13;

/// The greatest number of sampled header octets.
pub const MAX_HEADER_SIZE: u32 = 256;

/// The type of switch data.
pub const SWITCH: u32 = 1;
/// The type of router data.
pub const ROUTER: u32 = 2;
/// The type of gateway data.
pub const GATEWAY: u32 = 3;
/// The type of user data.
pub const USER: u32 = 4;
/// The type of URL data.
pub const URL: u32 = 5;

/// The type of an unordered segment.
pub const AS_SET: u32 = 1;
/// The type of an ordered segment.
pub const AS_SEQUENCE: u32 = 2;

/// The URL belongs to the source address.
pub const SRC: u32 = 1;
/// The URL belongs to the destination address.
pub const DST: u32 = 2;

/// The greatest length of a datagram in octets.
pub const MAX_DATAGRAM_SIZE: usize = 65_507;

/// The octets that a string of `length` octets takes up with its padding.
/// The sum may be 2^32, so it is not a 32-bit number.
pub fn padded_length(length: u32) -> u64 {
    u64::from(length).div_ceil(4) * 4
}
