//! Damages of a datagram, chosen at random: one of them, or two to four.

use crate::damage::*;
use crate::encoder::{Encoding, Item, ItemKind};
use crate::random::Random;

/// The damaged forms of one item of a datagram.
type Damage = fn(&Encoding, &Item) -> Vec<Vec<u8>>;

/// The datagram with one damage of any kind, one time in three with two to
/// four. Not every one makes a datagram that is refused.
pub fn any_damage(random: &mut Random, base: &Encoding) -> Vec<u8> {
    let damaged = match random.below(12) {
        0 => trailing(base),
        8.. => vec![several_damages(random, base)],
        1 => vec![scramble(random, base.octets.clone())],
        2 => vec![two_faults(random, base)],
        3 => at_one_item(random, base, item_truncations, |_| true),
        4 => at_one_item(random, base, padding, |item| item.padding > 0),
        5 => at_one_item(random, base, count_or_length, is_amount),
        _ => at_one_item(random, base, tested_word, is_tested),
    };
    let chosen = random.below(damaged.len());
    let chosen = damaged.into_iter().nth(chosen);
    chosen.unwrap_or_else(|| base.octets.clone())
}

/// Whether the item says how much follows.
fn is_amount(item: &Item) -> bool {
    matches!(
        item.kind,
        ItemKind::Count | ItemKind::HeaderLength | ItemKind::StringLength
    )
}

/// The damaged forms of one of the items of which `fits` is true.
fn at_one_item(
    random: &mut Random,
    base: &Encoding,
    damage: Damage,
    fits: fn(&Item) -> bool,
) -> Vec<Vec<u8>> {
    let fitting: Vec<&Item> = base.items.iter().filter(|item| fits(item)).collect();
    let chosen = random.below(fitting.len());
    let chosen = fitting.get(chosen);
    chosen.map_or(Vec::new(), |item| damage(base, item))
}

/// Two faults at neighbouring tested words.
fn two_faults(random: &mut Random, base: &Encoding) -> Vec<u8> {
    let tested = tested_items(base);
    let first = random.below(tested.len().saturating_sub(1));
    let pair = tested.get(first..first + 2).unwrap_or_default();
    double_fault(base, pair, random)
}

/// The datagram with two to four damages: half of the time at one item, which
/// may be cut as well, otherwise at items anywhere.
pub fn several_damages(random: &mut Random, base: &Encoding) -> Vec<u8> {
    let mut octets = base.octets.clone();
    let places: Vec<usize> = (0..base.items.len())
        .filter(|&at| decides(&base.items[at]))
        .collect();
    let any = |random: &mut Random| places.get(random.below(places.len())).copied();
    let Some(first) = any(random) else {
        return octets;
    };
    let at_one = random.below(2) == 0;
    let further = 1 + random.below(3);
    change_item(random, &mut octets, &base.items[first]);
    if !at_one {
        for _ in 0..further {
            let at = any(random).unwrap_or(first);
            change_item(random, &mut octets, &base.items[at]);
        }
    }
    if at_one || random.below(3) == 0 {
        // An item's neighbours change with it.
        for item in base.items.iter().skip(first + 1).take(further - 1) {
            change_item(random, &mut octets, item);
        }
        other_end(random, &mut octets, &base.items[first]);
    }
    octets
}

/// Whether the reader looks at the item's value.
fn decides(item: &Item) -> bool {
    is_tested(item) || is_amount(item) || item.padding > 0
}

/// Ends the octets in or behind this item, or with more than all of them.
fn other_end(random: &mut Random, octets: &mut Vec<u8>, item: &Item) {
    match random.below(4) {
        0 => octets.extend([0, 1].repeat(1 + random.below(4))),
        1 => octets.truncate(item.offset + item.length + random.below(9)),
        _ => octets.truncate(item.offset + random.below(item.length + 1)),
    }
}

/// Gives an item another value: a wrong or right word, another amount, a
/// padding octet that is not zero, or anything where the value is free.
fn change_item(random: &mut Random, octets: &mut [u8], item: &Item) {
    let Some(own) = octets.get_mut(item.offset..item.offset + item.length) else {
        return;
    };
    let place = match item.padding {
        0 => random.below(own.len()),
        padding => own.len() - 1 - random.below(padding),
    };
    let Some(octet) = own.get_mut(place) else {
        return;
    };
    let near = octet.wrapping_add([1, 2, 254, 255][random.below(4)]);
    if !is_tested(item) && !is_amount(item) {
        *octet = 1 + random.below(255) as u8;
    } else if random.below(4) == 0 {
        *octet = near;
    } else {
        let word = [0, 1, 2, 3, 8, 14, 257, 1 << 24, u32::MAX - 2, u32::MAX][random.below(10)];
        own.copy_from_slice(&word.to_be_bytes());
    }
}
