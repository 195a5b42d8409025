//! Listings of captures.
use crate::forms;
use troutgable::*;

/// The whole text of a capture that comes in parts, with an output of some room.
fn text(capture: &[u8], part: usize, room: usize) -> String {
    let (mut state, mut output, mut lines) = (State::default(), vec![0; room], vec![]);
    let (mut begin, mut end) = (0, 0);
    let bad = loop {
        let listed = list(&capture[begin..end], &mut output, &mut state);
        lines.extend_from_slice(&output[..listed.written]);
        begin += listed.taken;
        match listed.stop {
            Stop::BadRecord => break true,
            Stop::NoRecord if end == capture.len() => break begin < end,
            Stop::NoRecord => end = capture.len().min(end + part),
            Stop::Output => assert!(listed.taken > 0, "no record fits"),
        }
    };
    assert_eq!(state.offset, begin as u64);
    let n = end_lines(&mut output, &state, bad).unwrap();
    lines.extend_from_slice(&output[..n]);
    String::from_utf8(lines).unwrap()
}

#[test]
fn sample_captures() {
    let names =
        "example every-form refusals cut-datagram cut-head empty length-over-65507 wrong-mark";
    for name in names.split(' ') {
        let (capture, wanted) = forms::capture(name);
        for (part, room) in [
            (1 << 20, LINES_ROOM),
            (1, 2000),
            (37, 1600),
            (1000, LINES_ROOM),
        ] {
            assert_eq!(
                text(&capture, part, room),
                wanted,
                "{name} in parts of {part}"
            );
        }
    }
}

#[test]
fn states() {
    let capture = [
        b"sF\0\x48".to_vec(),
        forms::ipv4_head(1),
        forms::vlan(),
        b"sF\0\x04\0\0\0\x05sF\0".to_vec(),
    ]
    .concat();
    let mut state = State {
        offset: 1000,
        records: 11,
        refused: 3,
        samples: 20,
    };
    let mut output = [0xa5; 1000];
    let lines = b"12 agent 10.0.0.7 seq 1 length 72\n counters at 24 length 48 source 1.100 seq 5\n13 refused 2 at 0\n";
    let listed = list(&capture, &mut output, &mut state);
    assert_eq!(
        (listed.taken, listed.written, listed.stop),
        (84, lines.len(), Stop::NoRecord)
    );
    assert_eq!(&output[..lines.len()], lines);
    assert_eq!(output[lines.len()..], [0xa5; 1000][lines.len()..]);
    assert_eq!(
        (state.offset, state.records, state.refused, state.samples),
        (1084, 13, 4, 21)
    );
    let before = state;
    let listed = list(&capture, &mut output[..299], &mut state);
    assert_eq!(
        (listed.taken, listed.written, listed.stop, state),
        (0, 0, Stop::Output, before)
    );
}

#[test]
fn ends() {
    let state = State {
        offset: 701,
        records: 702,
        refused: 703,
        samples: 704,
    };
    let mut output = [0xa5; 123];
    assert_eq!(
        end_lines(&mut output[..122], &state, true),
        Err(WriteRefusal::NoRoom)
    );
    assert_eq!(output, [0xa5; 123]);
    let bad = b"capture bad at 701\nrecords 702 refused 703 samples 704\n";
    assert_eq!(end_lines(&mut output, &state, true), Ok(bad.len()));
    assert_eq!(&output[..bad.len()], bad);
    assert_eq!(end_lines(&mut output, &state, false), Ok(bad.len() - 19));
    assert_eq!(output[..bad.len() - 19], bad[19..]);
}
