//! Octets and numbers as text, for what is printed of a difference.

use std::fmt::Write;

/// Octets as hexadecimal digits.
pub fn hex(octets: &[u8]) -> String {
    let mut text = String::with_capacity(2 * octets.len());
    for octet in octets {
        // Writing to a string cannot fail.
        let _ = write!(text, "{octet:02x}");
    }
    text
}

/// Where two octet strings first differ, with some octets from there on; their lengths where one is
/// the beginning of the other.
pub fn from_difference(own: &[u8], other: &[u8]) -> String {
    let same = own.iter().zip(other).take_while(|(a, b)| a == b).count();
    let rest = own.get(same..).unwrap_or_default();
    let shown = rest.get(..32).unwrap_or(rest);
    format!("length {}, from {same} on: {}", own.len(), hex(shown))
}
