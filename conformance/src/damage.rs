//! Damaged datagrams: cut short, with bad words, counts, lengths, padding
//! and octets behind the end.

use crate::bases::{counter_bases, flow_bases};
use crate::counters::CountersVersion;
use crate::encoder::{encode, Encoding, Item, ItemKind};
use crate::grammar;
use crate::parts::{datagram, flow, header, mixed};
use crate::random::Random;
use crate::random_damage::several_damages;

/// The items of a datagram before its first sample.
const ITEMS_BEFORE_SAMPLES: usize = 6;

/// The datagrams with two to four damages.
const SEVERAL: usize = 240;

/// All damaged datagrams.
pub fn damaged(random: &mut Random) -> Vec<Vec<u8>> {
    let flows = flow_bases(random);
    let counters = counter_bases(random);
    let mut all = Vec::new();
    for (turn, base) in flows.iter().enumerate() {
        // The first two have both forms of the datagram's beginning.
        let first_item = if turn < 2 { 0 } else { ITEMS_BEFORE_SAMPLES };
        all.extend(truncations(base, first_item));
        all.extend(tested_words(base, first_item));
        all.extend(counts_and_lengths(base));
        all.extend(paddings(base));
        all.extend(trailing(base));
        all.extend(double_faults(base, random));
    }
    for base in &counters {
        all.extend(sparse_truncations(base));
        all.extend(other_counters_versions(base));
    }
    all.extend(header_limits(random));
    all.extend(scrambled(random));
    for turn in 0..SEVERAL {
        all.push(several_damages(random, &flows[turn % flows.len()]));
    }
    all
}

/// The first `length` octets.
pub fn cut(octets: &[u8], length: usize) -> Vec<u8> {
    octets.iter().copied().take(length).collect()
}

/// The octets with one word replaced.
pub fn with_word(octets: &[u8], offset: usize, value: u32) -> Vec<u8> {
    let mut changed = octets.to_vec();
    let word = value.to_be_bytes();
    for (octet, new) in changed.iter_mut().skip(offset).zip(word) {
        *octet = new;
    }
    changed
}

/// The word at this offset; 0 where there is none.
fn word_at(octets: &[u8], offset: usize) -> u32 {
    let word = octets
        .get(offset..)
        .and_then(|rest| rest.first_chunk::<4>());
    word.map_or(0, |word| u32::from_be_bytes(*word))
}

/// Cuts at the beginning of each item, 1 octet in, 1 octet short, and in the
/// middle of hypers.
fn truncations(base: &Encoding, first_item: usize) -> Vec<Vec<u8>> {
    let items = base.items.iter().skip(first_item);
    items
        .flat_map(|item| item_truncations(base, item))
        .collect()
}

/// The cuts of one item.
pub fn item_truncations(base: &Encoding, item: &Item) -> Vec<Vec<u8>> {
    let cuts = item_cuts(item).into_iter();
    cuts.map(|length| cut(&base.octets, length)).collect()
}

/// The lengths of a datagram that ends at the beginning of or in this item.
fn item_cuts(item: &Item) -> Vec<usize> {
    let mut lengths = vec![item.offset];
    if item.length > 0 {
        lengths.extend([item.offset + 1, item.offset + item.length - 1]);
    }
    if item.kind == ItemKind::Hyper {
        lengths.push(item.offset + 4);
    }
    lengths
}

/// One cut for each item, in turn at its beginning, 1 octet in and 1 octet
/// short; for hypers also in their middle.
fn sparse_truncations(base: &Encoding) -> Vec<Vec<u8>> {
    let mut all = Vec::new();
    for (turn, item) in base.items.iter().enumerate().skip(ITEMS_BEFORE_SAMPLES) {
        let cuts = item_cuts(item);
        all.extend(cuts.get(turn % 3).map(|&length| cut(&base.octets, length)));
        all.extend(cuts.get(3).map(|&length| cut(&base.octets, length)));
    }
    all
}

/// The greatest value the reader takes in a tested word; the least is 1,
/// but for the version, which has no other value.
fn greatest(kind: ItemKind) -> Option<u32> {
    match kind {
        ItemKind::Version => Some(grammar::VERSION4),
        ItemKind::AddressType => Some(grammar::IP_V6),
        ItemKind::SampleType => Some(grammar::COUNTERSSAMPLE),
        ItemKind::PacketDataType => Some(grammar::IPV6),
        ItemKind::HeaderProtocol => Some(grammar::LAST_HEADER_PROTOCOL),
        ItemKind::ExtendedType => Some(grammar::URL),
        ItemKind::SegmentType => Some(grammar::AS_SEQUENCE),
        ItemKind::UrlDirection => Some(grammar::DST),
        ItemKind::CountersVersion => Some(CountersVersion::Vlan.number()),
        _ => None,
    }
}

/// Each tested word damaged.
fn tested_words(base: &Encoding, first_item: usize) -> Vec<Vec<u8>> {
    let items = base.items.iter().skip(first_item);
    items.flat_map(|item| tested_word(base, item)).collect()
}

/// A tested word with bad values and with another good one, also as the last
/// octets of the datagram, whole or cut. Nothing for any other item.
pub fn tested_word(base: &Encoding, item: &Item) -> Vec<Vec<u8>> {
    let Some(greatest) = greatest(item.kind) else {
        return Vec::new();
    };
    let good = word_at(&base.octets, item.offset);
    let values = [
        0,
        greatest + 1,
        u32::MAX,
        good | 0x0100_0000,
        good % greatest + 1,
    ];
    let changed = values.map(|value| with_word(&base.octets, item.offset, value));
    let bad = with_word(&base.octets, item.offset, greatest + 1);
    let worse = with_word(&base.octets, item.offset, u32::MAX);
    let cuts = [cut(&bad, item.offset + 4), cut(&worse, item.offset + 3)];
    changed.into_iter().chain(cuts).collect()
}

/// The body of one counters version behind each other version's number, and
/// behind the numbers just outside.
fn other_counters_versions(base: &Encoding) -> Vec<Vec<u8>> {
    let items = base
        .items
        .iter()
        .filter(|item| item.kind == ItemKind::CountersVersion);
    items
        .flat_map(|item| (0..=8).map(|value| with_word(&base.octets, item.offset, value)))
        .filter(|octets| *octets != base.octets)
        .collect()
}

/// Each count and length damaged.
fn counts_and_lengths(base: &Encoding) -> Vec<Vec<u8>> {
    let items = base.items.iter();
    items.flat_map(|item| count_or_length(base, item)).collect()
}

/// A count or length made huge, one too large or one too small. Nothing for
/// any other item.
pub fn count_or_length(base: &Encoding, item: &Item) -> Vec<Vec<u8>> {
    let good = word_at(&base.octets, item.offset);
    let mut values = match item.kind {
        ItemKind::Count => vec![0],
        ItemKind::HeaderLength => vec![255, 256, 257],
        ItemKind::StringLength => vec![good.wrapping_add(4), u32::MAX - 3],
        _ => return Vec::new(),
    };
    values.extend([u32::MAX, u32::MAX - 2, 1 << 31]);
    values.extend([good.wrapping_add(1), good.wrapping_sub(1)]);
    let changed = values
        .iter()
        .map(|&value| with_word(&base.octets, item.offset, value));
    // A huge number with nothing behind it.
    let huge = with_word(&base.octets, item.offset, u32::MAX);
    changed.chain([cut(&huge, item.offset + 4)]).collect()
}

/// The padding of each string damaged.
fn paddings(base: &Encoding) -> Vec<Vec<u8>> {
    let items = base.items.iter();
    items.flat_map(|item| padding(base, item)).collect()
}

/// Each padding octet of an item made non-zero, alone, with all behind it,
/// and with the datagram cut behind it before the padding's end.
pub fn padding(base: &Encoding, item: &Item) -> Vec<Vec<u8>> {
    let mut all = Vec::new();
    let end = item.offset + item.length;
    for place in end - item.padding..end {
        let one = with_octets(&base.octets, place..place + 1, 1);
        let rest = with_octets(&base.octets, place..end, 0x80);
        for length in place + 1..end {
            all.push(cut(&one, length));
        }
        all.extend([one, rest]);
    }
    all
}

/// The octets with a stretch of them replaced by one value.
fn with_octets(octets: &[u8], places: std::ops::Range<usize>, value: u8) -> Vec<u8> {
    let mut changed = octets.to_vec();
    for octet in changed.iter_mut().take(places.end).skip(places.start) {
        *octet = value;
    }
    changed
}

/// One to five octets behind the end, zero and not, and a sample too many.
pub fn trailing(base: &Encoding) -> Vec<Vec<u8>> {
    let mut all = Vec::new();
    for count in 1..=5 {
        let value = if count % 2 == 0 { 0xff } else { 0 };
        let mut longer = base.octets.clone();
        longer.resize(longer.len() + count, value);
        all.push(longer);
    }
    if let Some(first) = base.items.get(ITEMS_BEFORE_SAMPLES) {
        let samples = base.octets.get(first.offset..).unwrap_or_default();
        all.push([&base.octets, samples].concat());
    }
    all
}

/// Two bad tested words, one behind the other, for each such pair.
fn double_faults(base: &Encoding, random: &mut Random) -> Vec<Vec<u8>> {
    let tested = tested_items(base);
    let pairs = tested.windows(2);
    pairs.map(|pair| double_fault(base, pair, random)).collect()
}

/// Whether the item is a word whose value the reader tests.
pub fn is_tested(item: &Item) -> bool {
    greatest(item.kind).is_some()
}

/// The items whose value the reader tests.
pub fn tested_items(base: &Encoding) -> Vec<Item> {
    let items = base.items.iter().copied();
    items.filter(|item| greatest(item.kind).is_some()).collect()
}

/// Two bad tested words and a cut somewhere behind the first: the first
/// fault is the one to be named.
pub fn double_fault(base: &Encoding, pair: &[Item], random: &mut Random) -> Vec<u8> {
    let [first, second] = pair else {
        return base.octets.clone();
    };
    let both = with_word(&base.octets, first.offset, u32::MAX);
    let both = with_word(&both, second.offset, 0);
    let room = base.octets.len().saturating_sub(first.offset + 4);
    cut(&both, first.offset + 4 + random.below(room))
}

/// Headers of 255 to 260 octets, whole and with octets missing.
fn header_limits(random: &mut Random) -> Vec<Vec<u8>> {
    let mut all = Vec::new();
    for length in 255..=260 {
        let data = header(random, 1, length);
        let sample = flow(random, data, Vec::new());
        let whole = encode(&datagram(random, vec![sample])).octets;
        all.push(cut(&whole, whole.len() - 100));
        all.push(whole);
    }
    all
}

/// Random datagrams with one to three octets changed.
fn scrambled(random: &mut Random) -> Vec<Vec<u8>> {
    let one = |random: &mut Random| {
        let octets = encode(&mixed(random)).octets;
        scramble(random, octets)
    };
    (0..50).map(|_| one(random)).collect()
}

/// The octets with one to three of them changed.
pub fn scramble(random: &mut Random, mut octets: Vec<u8>) -> Vec<u8> {
    for _ in 0..1 + random.below(3) {
        let place = random.below(octets.len());
        let value = random.hyper() as u8;
        octets = with_octets(&octets, place..place + 1, value);
    }
    octets
}
