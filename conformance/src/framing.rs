//! Files of strings of octets, each behind its length in 4 octets, big-endian.

/// The strings as a file.
pub fn file_of<'a>(strings: impl IntoIterator<Item = &'a [u8]>) -> Vec<u8> {
    let mut file = Vec::new();
    for octets in strings {
        let length = u32::try_from(octets.len()).unwrap_or(u32::MAX);
        file.extend(length.to_be_bytes());
        file.extend_from_slice(octets);
    }
    file
}

/// The first string of a file and the rest; nothing where it is cut or there
/// is none.
pub fn first_string(file: &[u8]) -> Option<(&[u8], &[u8])> {
    let (length, rest) = file.split_first_chunk::<4>()?;
    let length = usize::try_from(u32::from_be_bytes(*length)).ok()?;
    rest.split_at_checked(length)
}

/// The strings of a file; a cut one at its end is left out.
pub fn whole_strings(mut file: &[u8]) -> Vec<&[u8]> {
    let mut strings = Vec::new();
    while let Some((octets, rest)) = first_string(file) {
        strings.push(octets);
        file = rest;
    }
    strings
}
