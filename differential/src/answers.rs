//! Answers: a number, and the numbers that a lent array takes.

use crate::case::Case;
use crate::tally::{Tally, Told};

/// The numbers of an array before a call; no function answers this one.
pub const FILL: u64 = 0xa5c3_96e7_5a3c_6918;

/// The octets of a buffer before a call, where the input does not say.
pub const FILL_OCTET: u8 = 0xc7;

/// More numbers than any array takes.
pub const ROOM: usize = 64;

/// A number and the numbers that go into the array.
#[derive(Clone, Debug, PartialEq, Eq)]
pub struct Answer {
    /// 0, an answer of the engine, or a refusal.
    pub number: u32,
    /// What the array takes, from its first number on.
    pub numbers: Vec<u64>,
}

impl Answer {
    /// The answer with these numbers.
    pub fn new(number: u32, numbers: Vec<u64>) -> Answer {
        Answer { number, numbers }
    }
}

/// An array that is lent for a call, the numbers behind its end included.
pub type Array = [u64; ROOM];

/// Whether an array lent with this room has taken the numbers, and nothing else is changed.
pub fn has_taken(array: &[u64], room: usize, numbers: &[u64]) -> bool {
    let taken = numbers.len().min(room);
    let (front, behind) = array.split_at(taken.min(array.len()));
    Some(front) == numbers.get(..taken) && behind.iter().all(|&number| number == FILL)
}

/// Compares the answer of a function, with an array that has room for all its numbers and with one
/// that has room for fewer or just as many. Gives our array.
pub fn compare_answer(
    tally: &mut Tally,
    function: &str,
    input: &dyn Fn() -> Case,
    second: &Answer,
    call: &dyn Fn(&mut [u64]) -> u32,
) -> Array {
    let usual = tally.comparisons() as usize / 2 % (second.numbers.len() + 1);
    let short = tally.room(usual).min(ROOM);
    compare_in(tally, function, input, second, call, short);
    compare_in(tally, function, input, second, call, ROOM)
}

/// Compares the answer of a function whose array has this room.
fn compare_in(
    tally: &mut Tally,
    function: &str,
    input: &dyn Fn() -> Case,
    second: &Answer,
    call: &dyn Fn(&mut [u64]) -> u32,
    room: usize,
) -> Array {
    let mut array = [FILL; ROOM];
    let number = call(&mut array[..room]);
    let same = number == second.number && has_taken(&array, room, &second.numbers);
    tally.compare(same, function, || Told {
        input: input().number("room", room),
        ours: numbers_text(number, &array),
        second: numbers_text(second.number, &second.numbers),
    });
    array
}

/// A number, and the numbers of an array up to the last that was changed.
pub fn numbers_text(number: u32, array: &[u64]) -> String {
    let changed = array.iter().rposition(|&number| number != FILL);
    let shown = array.get(..changed.map_or(0, |last| last + 1));
    format!("{number} {:?}", shown.unwrap_or_default())
}
