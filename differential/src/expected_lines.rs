//! What one call that lists records must answer, by the second program's lines of each record.

use conformance::capture::{first_datagram, record, HEAD_OCTETS, MARK};
use conformance::grammar::MAX_DATAGRAM_SIZE;
use conformance::listing::list;

/// The room that the library asks for before it lists a record: so many octets for the record and
/// so many for each sample of an accepted one. The library's contract says so; the second program
/// has no such bound.
const RECORD_ROOM: usize = 164;
const SAMPLE_ROOM: usize = 136;

/// What is left is no whole record.
pub const NO_RECORD: u32 = 0;
/// The output may be too short for the next record.
pub const OUTPUT: u32 = 1;
/// The next record has a wrong mark or length.
pub const BAD_RECORD: u32 = 2;

/// What a call answers, and what it leaves.
#[derive(Clone, Debug, PartialEq, Eq)]
pub struct Listed {
    /// Why it stopped.
    pub answer: u32,
    /// The whole output.
    pub output: Vec<u8>,
    /// Offset, records, refused, samples, octets taken, octets written.
    pub state: [u64; 6],
}

/// The whole records at a capture's front, into an output, behind what was listed before.
pub fn listed(capture: &[u8], output: &[u8], before: [u64; 4]) -> Listed {
    let [offset, records, refused, samples] = before;
    let mut call = Listed {
        answer: NO_RECORD,
        output: output.to_vec(),
        state: [offset, records, refused, samples, 0, 0],
    };
    let mut rest = capture;
    while let Some((datagram, behind)) = first_datagram(rest) {
        if !call.add(datagram) {
            call.answer = OUTPUT;
            return call;
        }
        rest = behind;
    }
    if is_wrong(rest) {
        call.answer = BAD_RECORD;
    }
    call
}

/// Whether octets begin with the head of no record, so that more octets cannot help.
fn is_wrong(octets: &[u8]) -> bool {
    let Some(&[first, second, high, low]) = octets.first_chunk::<HEAD_OCTETS>() else {
        return false;
    };
    let length = u16::from_be_bytes([high, low]);
    [first, second] != MARK || usize::from(length) > MAX_DATAGRAM_SIZE
}

impl Listed {
    /// Lists one more record where there is room.
    fn add(&mut self, datagram: &[u8]) -> bool {
        let own = Lines::of(datagram);
        let number = self.state[1].wrapping_add(1);
        let text = [number.to_string().as_bytes(), &own.behind_number].concat();
        let written = self.state[5] as usize;
        let asked = RECORD_ROOM + SAMPLE_ROOM * own.samples as usize;
        let free = self.output.get_mut(written..).unwrap_or_default();
        if free.len() < asked {
            return false;
        }
        free.iter_mut()
            .zip(&text)
            .for_each(|(to, from)| *to = *from);
        let taken = (HEAD_OCTETS + datagram.len()) as u64;
        let more = [taken, 1, own.refused, own.samples, taken, text.len() as u64];
        for (own, more) in self.state.iter_mut().zip(more) {
            *own = own.wrapping_add(more);
        }
        true
    }
}

/// The lines of a record.
struct Lines {
    /// All of the text but the record's number, with which it begins.
    behind_number: Vec<u8>,
    /// 1 for a refused record, else 0.
    refused: u64,
    /// The samples of an accepted one.
    samples: u64,
}

impl Lines {
    /// The lines of a datagram's record, taken from the listing of that record alone: its number
    /// there is 1, and behind its lines is one line with the counts.
    fn of(datagram: &[u8]) -> Lines {
        let mut text = list(&record(datagram));
        let before_end = text.len().saturating_sub(1);
        let line_feed = text[..before_end].iter().rposition(|&octet| octet == b'\n');
        let last_line = text.split_off(line_feed.map_or(0, |place| place + 1));
        let last_line = String::from_utf8_lossy(&last_line).into_owned();
        let mut counts = last_line
            .split_whitespace()
            .filter_map(|word| word.parse().ok());
        let _records = counts.next();
        Lines {
            behind_number: text.split_off(1.min(text.len())),
            refused: counts.next().unwrap_or(0),
            samples: counts.next().unwrap_or(0),
        }
    }
}
