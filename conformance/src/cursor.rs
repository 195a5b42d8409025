//! Reading items from left to right: for each its presence, then its value.

use crate::grammar::padded_length;
use crate::refusal::{Fault, Refusal};

/// A stretch of the datagram.
#[derive(Clone, Copy, Debug, Default, PartialEq, Eq)]
pub struct Span {
    /// The place of its first octet.
    pub offset: usize,
    /// How many octets it has.
    pub length: usize,
}

/// The octets of a datagram and how far they have been read.
pub struct Cursor<'a> {
    octets: &'a [u8],
    next: usize,
    /// The places of the strings read so far, without their padding.
    strings: Vec<Span>,
}

impl<'a> Cursor<'a> {
    /// Begins at the first octet.
    pub fn new(octets: &'a [u8]) -> Cursor<'a> {
        Cursor {
            octets,
            next: 0,
            strings: Vec::new(),
        }
    }

    /// The offset of the next item.
    pub fn offset(&self) -> usize {
        self.next
    }

    /// Whether no octets are left.
    pub fn at_end(&self) -> bool {
        self.next >= self.octets.len()
    }

    /// The places of the strings read since the last call.
    pub fn take_strings(&mut self) -> Vec<Span> {
        std::mem::take(&mut self.strings)
    }

    /// The octets of one item, or the refusal that they are missing.
    fn item(&mut self, length: u64) -> Result<&'a [u8], Refusal> {
        let missing = Refusal::new(Fault::Missing, self.next);
        let length = usize::try_from(length).map_err(|_| missing)?;
        let end = self.next.checked_add(length).ok_or(missing)?;
        let octets = self.octets.get(self.next..end).ok_or(missing)?;
        self.next = end;
        Ok(octets)
    }

    /// An item of a fixed number of octets.
    pub fn array<const N: usize>(&mut self) -> Result<[u8; N], Refusal> {
        let missing = Refusal::new(Fault::Missing, self.next);
        let octets = self.item(N as u64)?;
        octets.try_into().map_err(|_| missing)
    }

    /// A word: an item of 4 octets.
    pub fn word(&mut self) -> Result<u32, Refusal> {
        Ok(u32::from_be_bytes(self.array()?))
    }

    /// A hyper: an item of 8 octets.
    pub fn hyper(&mut self) -> Result<u64, Refusal> {
        Ok(u64::from_be_bytes(self.array()?))
    }

    /// A word that is refused with `fault` where `choose` gives nothing for it.
    pub fn chosen<T>(
        &mut self,
        fault: Fault,
        choose: impl Fn(u32) -> Option<T>,
    ) -> Result<T, Refusal> {
        let place = self.next;
        choose(self.word()?).ok_or(Refusal::new(fault, place))
    }

    /// A string without a limit: its length word, then octets with padding.
    pub fn string(&mut self) -> Result<Vec<u8>, Refusal> {
        let length = self.word()?;
        self.string_octets(length)
    }

    /// A string whose length word is refused with `fault` above `limit`.
    pub fn limited_string(&mut self, limit: u32, fault: Fault) -> Result<Vec<u8>, Refusal> {
        let length = self.chosen(fault, |length| (length <= limit).then_some(length))?;
        self.string_octets(length)
    }

    /// The item behind a string's length word: octets and padding together.
    fn string_octets(&mut self, length: u32) -> Result<Vec<u8>, Refusal> {
        let offset = self.next;
        let with_padding = self.item(padded_length(length))?;
        // The length is not above the octets present, so it fits.
        let length = (length as usize).min(with_padding.len());
        let (octets, padding) = with_padding.split_at(length);
        if let Some(bad) = padding.iter().position(|&octet| octet != 0) {
            return Err(Refusal::new(Fault::Padding, offset + length + bad));
        }
        self.strings.push(Span { offset, length });
        Ok(octets.to_vec())
    }

    /// A list: its count word, then as many entries. The entries are read one
    /// after the other, so a count costs no more than the octets behind it.
    pub fn list<T>(
        &mut self,
        mut entry: impl FnMut(&mut Cursor<'a>) -> Result<T, Refusal>,
    ) -> Result<Vec<T>, Refusal> {
        let count = self.word()?;
        let mut entries = Vec::new();
        for _ in 0..count {
            entries.push(entry(self)?);
        }
        Ok(entries)
    }
}
