//! The listing of a capture as text: a line for each record, a line for each
//! sample of an accepted datagram, and a last line with the counts.

use std::fmt::Write;

use crate::capture::first_datagram;
use crate::cursor::Span;
use crate::reader::{read, Reading};
use crate::value::{Address, Sample};

/// The whole text for a capture.
pub fn list(capture: &[u8]) -> Vec<u8> {
    let mut listing = Listing::default();
    let mut rest = capture;
    while !rest.is_empty() {
        let Some((datagram, behind)) = first_datagram(rest) else {
            listing.bad(capture.len() - rest.len());
            break;
        };
        listing.record(datagram);
        rest = behind;
    }
    listing.last_line();
    listing.text.into_bytes()
}

/// The text so far, and what has been counted for its last line.
#[derive(Default)]
struct Listing {
    text: String,
    /// All records, refused ones included.
    records: u64,
    refused: u64,
    /// The samples of accepted datagrams.
    samples: u64,
}

/// Appends one line. Writing to a string cannot fail.
fn line(text: &mut String, line: std::fmt::Arguments) {
    let _ = writeln!(text, "{line}");
}

impl Listing {
    /// The lines of a whole record.
    fn record(&mut self, datagram: &[u8]) {
        self.records += 1;
        match read(datagram) {
            Ok(reading) => self.accepted(&reading, datagram.len()),
            Err(refusal) => {
                self.refused += 1;
                line(&mut self.text, format_args!("{} {refusal}", self.records));
            }
        }
    }

    /// The lines of an accepted datagram of this length.
    fn accepted(&mut self, reading: &Reading, length: usize) {
        let datagram = &reading.datagram;
        line(
            &mut self.text,
            format_args!(
                "{} agent {} seq {} length {length}",
                self.records,
                agent(&datagram.agent_address),
                datagram.sequence_number,
            ),
        );
        for (sample, places) in datagram.samples.iter().zip(&reading.places) {
            self.sample(sample, places.sample);
        }
    }

    /// The line of a sample at this place in its datagram.
    fn sample(&mut self, sample: &Sample, place: Span) {
        self.samples += 1;
        let (kind, source, sequence) = match sample {
            Sample::Flow(flow) => ("flow", flow.source_id, flow.sequence_number),
            Sample::Counters(own) => ("counters", own.source_id, own.sequence_number),
        };
        let Span { offset, length } = place;
        let (class, index) = (source >> 24, source & 0x00ff_ffff);
        line(
            &mut self.text,
            format_args!(
                " {kind} at {offset} length {length} source {class}.{index} seq {sequence}"
            ),
        );
    }

    /// The line of a record that cannot be read, by its offset in the capture.
    fn bad(&mut self, offset: usize) {
        line(&mut self.text, format_args!("capture bad at {offset}"));
    }

    fn last_line(&mut self) {
        line(
            &mut self.text,
            format_args!(
                "records {} refused {} samples {}",
                self.records, self.refused, self.samples
            ),
        );
    }
}

/// An agent address: four decimal numbers with dots between them, or 32
/// lower-case hexadecimal digits.
fn agent(address: &Address) -> String {
    match address {
        Address::IpV4([a, b, c, d]) => format!("{a}.{b}.{c}.{d}"),
        Address::IpV6(octets) => format!("{:032x}", u128::from_be_bytes(*octets)),
    }
}

#[cfg(test)]
mod tests {
    use super::*;
    use crate::cases::{beginning, octets_of};

    /// The text of a capture.
    fn text(capture: &[u8]) -> String {
        String::from_utf8(list(capture)).expect("text")
    }

    /// Case 7's datagram behind its head.
    fn case_7() -> Vec<u8> {
        let sample = octets_of(&[2, 5, 0x0100_0064, 20, 7, 100, 0, 0, 0, 0, 0, 0]);
        [&[0x73, 0x46, 0, 0x48][..], &beginning(1), &sample].concat()
    }

    const CASE_7_LINES: &str = "1 agent 10.0.0.7 seq 1 length 72\n \
        counters at 24 length 48 source 1.100 seq 5\n";

    #[test]
    fn the_scopes_four_lines() {
        let capture = [&case_7()[..], &[0x73, 0x46, 0, 4, 0, 0, 0, 5]].concat();
        let stated = [
            "1 agent 10.0.0.7 seq 1 length 72",
            " counters at 24 length 48 source 1.100 seq 5",
            "2 refused 2 at 0",
            "records 2 refused 1 samples 1",
        ];
        assert_eq!(text(&capture), stated.join("\n") + "\n");
    }

    #[test]
    fn an_empty_capture() {
        assert_eq!(text(&[]), "records 0 refused 0 samples 0\n");
    }

    #[test]
    fn a_datagram_of_no_octets() {
        let stated = "1 refused 1 at 0\nrecords 1 refused 1 samples 0\n";
        assert_eq!(text(&[0x73, 0x46, 0, 0]), stated);
    }

    #[test]
    fn a_wrong_mark_ends_the_listing() {
        let end = "capture bad at 76\nrecords 1 refused 0 samples 1\n";
        let good = case_7();
        for place in 0..2 {
            for bit in 0..8 {
                let mut wrong = good.clone();
                wrong[place] ^= 1 << bit;
                let stated = "capture bad at 0\nrecords 0 refused 0 samples 0\n";
                assert_eq!(text(&wrong), stated);
                // What stands behind the bad record is not read.
                let capture = [&good[..], &wrong, &good].concat();
                assert_eq!(text(&capture), [CASE_7_LINES, end].concat());
            }
        }
    }

    #[test]
    fn a_length_over_the_greatest() {
        for length in 65_505..=65_535_usize {
            let head = [0x73, 0x46, (length >> 8) as u8, length as u8];
            let capture = [&head[..], &vec![0; length]].concat();
            let stated = if length > 65_507 {
                "capture bad at 0\nrecords 0 refused 0 samples 0\n"
            } else {
                "1 refused 2 at 0\nrecords 1 refused 1 samples 0\n"
            };
            assert_eq!(text(&capture), stated, "{length}");
        }
    }

    #[test]
    fn a_record_cut_at_every_octet() {
        let good = case_7();
        let end = "capture bad at 76\nrecords 1 refused 0 samples 1\n";
        for length in 1..good.len() {
            let capture = [&good[..], &good[..length]].concat();
            assert_eq!(text(&capture), [CASE_7_LINES, end].concat(), "{length}");
        }
    }

    #[test]
    fn an_ipv6_agent_and_a_flow_sample_with_all_bits_set() {
        let mut words = vec![4, 2, 0x0001_0203, 0xffab_0000, 0, 0x0000_000d];
        words.extend([u32::MAX, 1000, 1]);
        words.extend([1, u32::MAX, u32::MAX, 1, 1, 0, 0, 0, 1, 1, 64, 0, 0]);
        let datagram = octets_of(&words);
        let head = [0x73, 0x46, 0, datagram.len() as u8];
        let stated = [
            "1 agent 00010203ffab0000000000000000000d seq 4294967295 length 88",
            " flow at 36 length 52 source 255.16777215 seq 4294967295",
            "records 1 refused 0 samples 1\n",
        ];
        let capture = [&head[..], &datagram].concat();
        assert_eq!(text(&capture), stated.join("\n"));
    }
}
