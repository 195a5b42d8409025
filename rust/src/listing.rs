//! Listings of captures.
use crate::calls;
use crate::refusal::WriteRefusal;

/// An output of so many octets takes the lines of any one record.
pub const LINES_ROOM: usize = 222_796;

/// An output of so many octets takes what follows the last record.
pub const END_LINES_ROOM: usize = 123;

/// What was listed so far; all 0 at first.
#[derive(Clone, Copy, Debug, Default, PartialEq, Eq)]
pub struct State {
    /// octets of the capture
    pub offset: u64,
    /// records
    pub records: u64,
    /// refused ones among them
    pub refused: u64,
    /// samples of the accepted ones
    pub samples: u64,
}

/// Why listing stopped.
#[derive(Clone, Copy, Debug, PartialEq, Eq)]
pub enum Stop {
    /// what is left is no whole record: go on with more octets; where the capture ends with some
    /// left, it is bad there
    NoRecord,
    /// the output may be too short for the next record: go on with the output free again
    Output,
    /// the next record has a wrong mark or length: the capture is bad there
    BadRecord,
}

/// How far a call came.
#[derive(Clone, Copy, Debug, PartialEq, Eq)]
pub struct Listed {
    /// octets of the capture that were listed
    pub taken: usize,
    /// octets of the output that are lines
    pub written: usize,
    /// why it stopped
    pub stop: Stop,
}

/// Lists the whole records at the front of a part of a capture, as lines of text at the front of
/// the output, and brings the state up to date. A record is the mark 73 46 (hex), a length of two
/// octets, and a datagram of that length.
///
/// ```
/// use troutgable::{end_lines, list, State, Stop};
///
/// let capture = b"sF\0\x04\0\0\0\x05sF";
/// let (mut state, mut output) = (State::default(), [0; 1000]);
/// let listed = list(capture, &mut output, &mut state);
/// assert_eq!((listed.taken, listed.stop), (8, Stop::NoRecord));
/// let bad = listed.taken < capture.len();
/// let end = listed.written + end_lines(&mut output[listed.written..], &state, bad).unwrap();
/// assert_eq!(&output[..end], b"1 refused 2 at 0\ncapture bad at 8\nrecords 1 refused 1 samples 0\n");
/// ```
pub fn list(capture: &[u8], output: &mut [u8], state: &mut State) -> Listed {
    let mut numbers = [
        state.offset,
        state.records,
        state.refused,
        state.samples,
        0,
        0,
    ];
    let stop = match calls::lines(capture, output, &mut numbers) {
        0 => Stop::NoRecord,
        1 => Stop::Output,
        _ => Stop::BadRecord,
    };
    let [offset, records, refused, samples, taken, written] = numbers;
    *state = State {
        offset,
        records,
        refused,
        samples,
    };
    Listed {
        taken: taken as usize,
        written: written as usize,
        stop,
    }
}

/// Writes what follows a capture's last record to the front of the output, and answers its length:
/// where the capture is bad, the line that says where, then the last line. Refuses an output of
/// fewer than 123 octets (20), which stays as it was.
pub fn end_lines(output: &mut [u8], state: &State, bad: bool) -> Result<usize, WriteRefusal> {
    let counts = [state.offset, state.records, state.refused, state.samples];
    let mut out = [0];
    match calls::end_lines(output, counts, u32::from(bad), &mut out) {
        0 => Ok(out[0] as usize),
        number => Err(WriteRefusal::of(number)),
    }
}
