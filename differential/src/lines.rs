//! Lines: captures listed whole and in parts, into outputs of several lengths.

use conformance::inputs::captures;
use conformance::listing::list;
use conformance::random::Random;

use crate::answers::{has_taken, numbers_text, FILL, FILL_OCTET, ROOM};
use crate::calls;
use crate::case::{Case, Wrong};
use crate::expected_lines::{listed, Listed, BAD_RECORD, OUTPUT};
use crate::parts::Inputs;
use crate::tally::{Tally, Told};
use crate::text::{from_difference, hex};

/// Captures at scale 1.
const CAPTURES: usize = 40_000;

/// Octets of output that take any record, and that the last lines ask for.
const LINES_ROOM: usize = 222_796;
const END_ROOM: usize = 123;

/// Octets behind an output, and numbers behind a state; they stay.
const BEHIND: usize = 16;
const STATE: usize = 6;

/// The longest capture that is listed octet by octet.
const SHORT: usize = 400;

/// Outputs' lengths about which there is something to test.
const LENGTHS: [usize; 12] = [
    0, 1, 163, 164, 165, 299, 300, 301, 436, 1_000, 5_000, LINES_ROOM,
];

/// Compares on the captures of a seed.
pub fn compare_all(tally: &mut Tally, inputs: &Inputs) {
    let mut random = Random::new(!inputs.seed);
    for capture in captures(inputs.seed).take(inputs.count(CAPTURES)) {
        tally.input();
        for ends in [whole(&capture), cut(&mut random, &capture)] {
            let length = output_length(&mut random);
            compare_listing(tally, &capture, &ends, length);
        }
        let (state, length) = (any_counts(&mut random), random.below(3_000));
        compare_call(tally, &capture, length, state);
        compare_short_state(tally, &capture, random.below(STATE));
        compare_any_end(tally, &mut random);
    }
}

/// Compares on a kept input.
pub fn compare_case(tally: &mut Tally, case: &Case) -> Result<(), Wrong> {
    let capture = || case.octets_of("capture");
    let length = || case.number_of("output").map(|own| LINES_ROOM.min(own));
    match case.kind() {
        "listing" => compare_listing(tally, &capture()?, &case.numbers_of("ends")?, length()?),
        "lines" => compare_call(tally, &capture()?, length()?, case.array_of("state")?),
        "short-state" => compare_short_state(tally, &capture()?, case.number_of("numbers")?),
        _ => {
            let room = tally.room(0).min(ROOM);
            let counts = case.array_of("counts")?;
            compare_end(tally, counts, case.number_of("bad")?, length()?, room);
        }
    }
    Ok(())
}

/// One part.
fn whole(capture: &[u8]) -> Vec<usize> {
    vec![capture.len()]
}

/// The ends of parts, cut at any octets.
fn cut(random: &mut Random, capture: &[u8]) -> Vec<usize> {
    let length = capture.len();
    let mut ends: Vec<usize> = match random.below(3) {
        0 if length <= SHORT => (0..length).collect(),
        _ => (0..random.below(6))
            .map(|_| random.below(length + 1))
            .collect(),
    };
    ends.sort_unstable();
    ends.push(length);
    ends
}

fn output_length(random: &mut Random) -> usize {
    match random.below(3) {
        0 => random.below(3_000),
        _ => LENGTHS[random.below(LENGTHS.len())],
    }
}

/// Lists a capture in parts; each call, and the whole text with its last lines, is compared.
fn compare_listing(tally: &mut Tally, capture: &[u8], ends: &[usize], length: usize) {
    let input = || {
        let ends = ends.iter().map(|&end| end as u64);
        Case::new("listing")
            .octets("capture", capture)
            .numbers("ends", ends)
            .number("output", length)
    };
    tally.guarded(&input, |tally| {
        let second = list(capture);
        let mut listing = Listing::default();
        for &end in ends {
            if !listing.list_part(tally, capture, end, length) {
                break;
            }
        }
        let bad = listing.bad || listing.taken < capture.len();
        let text = &mut listing.text;
        text.extend(end_lines(listing.state, bad));
        tally.compare(*text == second, "sflow4_lines to the end", || Told {
            input: input(),
            ours: String::from_utf8_lossy(text).into_owned(),
            second: String::from_utf8_lossy(&second).into_owned(),
        });
    });
}

/// A listing that is handed on from call to call.
#[derive(Default)]
struct Listing {
    text: Vec<u8>,
    state: [u64; 4],
    /// Octets of the capture that were listed.
    taken: usize,
    bad: bool,
}

impl Listing {
    /// Lists what is not yet listed up to an end. Answers whether listing can go on.
    fn list_part(&mut self, tally: &mut Tally, capture: &[u8], end: usize, length: usize) -> bool {
        let mut length = length;
        loop {
            let part = capture.get(self.taken..end).unwrap_or_default();
            let (call, same) = compare_lines(tally, part, length, self.state);
            let [offset, records, refused, samples, taken, written] = call.state;
            self.state = [offset, records, refused, samples];
            self.taken = self.taken.saturating_add(taken as usize);
            self.text.extend(call.output.iter().take(written as usize));
            self.bad = call.answer == BAD_RECORD;
            if !same || self.bad {
                return false;
            }
            if call.answer != OUTPUT {
                return true;
            }
            // An output that takes any record comes next; it must take one.
            match taken {
                0 if length == LINES_ROOM => return false,
                0 => length = LINES_ROOM,
                _ => {}
            }
        }
    }
}

/// Compares one call; gives our answer, and whether it is the second program's.
fn compare_lines(
    tally: &mut Tally,
    capture: &[u8],
    length: usize,
    before: [u64; 4],
) -> (Listed, bool) {
    let mut output = vec![FILL_OCTET; length + BEHIND];
    let mut state = [FILL; STATE + 2];
    state[..4].copy_from_slice(&before);
    let second = listed(capture, &output[..length], before);
    let answer = calls::lines(capture, &mut output[..length], &mut state);
    let stays = output[length..].iter().all(|&octet| octet == FILL_OCTET)
        && state[STATE..].iter().all(|&number| number == FILL);
    output.truncate(length);
    let [a, b, c, d, e, f, ..] = state;
    let ours = Listed {
        answer,
        output,
        state: [a, b, c, d, e, f],
    };
    let same = ours == second && stays;
    tally.compare(same, "sflow4_lines", || Told {
        input: lines_case(capture, length, before),
        ours: call_text(&ours, &second),
        second: call_text(&second, &ours),
    });
    (ours, same)
}

fn call_text(own: &Listed, other: &Listed) -> String {
    let output = from_difference(&own.output, &other.output);
    format!("{} {:?} output {output}", own.answer, own.state)
}

fn lines_case(capture: &[u8], length: usize, before: [u64; 4]) -> Case {
    Case::new("lines")
        .octets("capture", capture)
        .number("output", length)
        .numbers("state", before)
}

/// One call behind any numbers, such as are near 2^64.
fn compare_call(tally: &mut Tally, capture: &[u8], length: usize, state: [u64; 4]) {
    let input = || lines_case(capture, length, state);
    tally.guarded(&input, |tally| {
        compare_lines(tally, capture, length, state);
    });
}

fn any_counts(random: &mut Random) -> [u64; 4] {
    std::array::from_fn(|_| match random.below(3) {
        0 => u64::MAX - random.below(3) as u64,
        1 => 10_u64.pow(random.below(20) as u32) - random.below(2) as u64,
        _ => random.hyper(),
    })
}

/// A state of fewer than six numbers is refused; nothing is changed.
fn compare_short_state(tally: &mut Tally, capture: &[u8], room: usize) {
    let room = room.min(STATE - 1);
    let mut output = [FILL_OCTET; 1_000];
    let mut state = [FILL; STATE];
    let answer = calls::lines(capture, &mut output, &mut state[..room]);
    let stays = state == [FILL; STATE] && output == [FILL_OCTET; 1_000];
    tally.compare(answer == 99 && stays, "sflow4_lines", || Told {
        input: Case::new("short-state")
            .octets("capture", capture)
            .number("numbers", room),
        ours: numbers_text(answer, &state),
        second: "99, nothing changed (the header)".into(),
    });
}

/// What follows the last record, by the library.
fn end_lines(state: [u64; 4], bad: bool) -> Vec<u8> {
    let mut output = [FILL_OCTET; END_ROOM];
    let mut length = [0];
    calls::end_lines(&mut output, state, bad.into(), &mut length);
    output.iter().copied().take(length[0] as usize).collect()
}

/// Compares what follows the last record for any numbers and outputs.
fn compare_any_end(tally: &mut Tally, random: &mut Random) {
    let counts = any_counts(random);
    let bad = [0, 1, u32::MAX, random.word()][random.below(4)];
    let length = END_ROOM - 2 + random.below(6);
    compare_end(tally, counts, bad, length, random.below(3));
}

/// Compares what follows the last record for these numbers, into an output of this length.
fn compare_end(tally: &mut Tally, counts: [u64; 4], bad: u32, length: usize, room: usize) {
    let (number, text) = match length < END_ROOM {
        true => (20, Vec::new()),
        false => (0, end_text(counts, bad != 0)),
    };
    let numbers = vec![text.len() as u64; (number == 0).into()];
    let mut expected = text;
    expected.resize(length + BEHIND, FILL_OCTET);
    let mut output = vec![FILL_OCTET; length + BEHIND];
    let mut array = [FILL; ROOM];
    let ours = calls::end_lines(&mut output[..length], counts, bad, &mut array[..room]);
    let same = ours == number && output == expected && has_taken(&array, room, &numbers);
    tally.compare(same, "sflow4_end_lines", || Told {
        input: Case::new("end-lines")
            .numbers("counts", counts)
            .number("bad", bad)
            .number("output", length)
            .number("room", room),
        ours: format!("{} {}", numbers_text(ours, &array), hex(&output)),
        second: format!("{} {}", numbers_text(number, &numbers), hex(&expected)),
    });
}

/// The text that follows the last record.
fn end_text([offset, records, refused, samples]: [u64; 4], bad: bool) -> Vec<u8> {
    let last = format!("records {records} refused {refused} samples {samples}\n");
    let text = match bad {
        true => format!("capture bad at {offset}\n{last}"),
        false => last,
    };
    text.into_bytes()
}
