//! The programs as they are run: arguments, output and status.

use std::io::Write;
use std::path::PathBuf;
use std::process::{Command, Output, Stdio};

use conformance::captures::{large_captures, small_captures};
use conformance::listing::list;

const LIST: &str = env!("CARGO_BIN_EXE_list");
const CAPTURES: &str = env!("CARGO_BIN_EXE_captures");

/// Runs a program with this input.
fn run(program: &str, arguments: &[&str], input: &[u8]) -> Output {
    let mut child = Command::new(program)
        .args(arguments)
        .stdin(Stdio::piped())
        .stdout(Stdio::piped())
        .stderr(Stdio::piped())
        .spawn()
        .expect("a program");
    let mut stdin = child.stdin.take().expect("its input");
    // A program that refuses its arguments reads nothing.
    let _ = stdin.write_all(input);
    drop(stdin);
    child.wait_with_output().expect("its end")
}

/// What a program writes that ends well and says nothing.
fn written(program: &str, arguments: &[&str], input: &[u8]) -> Vec<u8> {
    let output = run(program, arguments, input);
    assert_eq!(output.status.code(), Some(0));
    assert!(output.stderr.is_empty());
    output.stdout
}

#[test]
fn the_lister_prints_the_text_of_each_sample() {
    for sample in [small_captures(), large_captures()].concat() {
        assert_eq!(written(LIST, &[], &sample.capture), sample.text());
    }
}

#[test]
fn unknown_arguments_are_refused() {
    let calls: [(&str, &[&str]); 8] = [
        (LIST, &["file"]),
        (LIST, &["--help"]),
        (CAPTURES, &[]),
        (CAPTURES, &["random", "1"]),
        (CAPTURES, &["random", "1", "2", "worse"]),
        (CAPTURES, &["flows", "many"]),
        (CAPTURES, &["counters"]),
        (CAPTURES, &["directory", "larger"]),
    ];
    for (program, arguments) in calls {
        let output = run(program, arguments, &[]);
        assert_eq!(output.status.code(), Some(2), "{arguments:?}");
        assert!(output.stdout.is_empty());
        assert!(String::from_utf8_lossy(&output.stderr).contains("usage"));
    }
}

#[test]
fn a_closed_output_is_no_failure() {
    let calls: [(&str, &[&str]); 2] = [(LIST, &[]), (CAPTURES, &["flows", "1000"])];
    for (program, arguments) in calls {
        let mut child = Command::new(program)
            .args(arguments)
            .stdin(Stdio::piped())
            .stdout(Stdio::piped())
            .stderr(Stdio::piped())
            .spawn()
            .expect("a program");
        drop(child.stdout.take());
        let mut stdin = child.stdin.take().expect("its input");
        let _ = stdin.write_all(&large_captures()[0].capture);
        drop(stdin);
        let output = child.wait_with_output().expect("its end");
        assert_eq!(output.status.code(), Some(0));
        assert!(output.stderr.is_empty());
    }
}

#[test]
fn captures_are_written_to_standard_output() {
    let last = |arguments: &[&str]| {
        let text = list(&written(CAPTURES, arguments, &[]));
        let text = String::from_utf8(text).expect("text");
        text.lines().last().expect("a last line").to_string()
    };
    assert_eq!(last(&["flows", "3"]), "records 3 refused 0 samples 21");
    assert_eq!(last(&["counters", "3"]), "records 3 refused 0 samples 24");
    assert!(last(&["random", "9", "40"]).starts_with("records 40 "));
    let good = written(CAPTURES, &["random", "9", "40"], &[]);
    let bad = written(CAPTURES, &["random", "9", "40", "bad"], &[]);
    assert!(bad.starts_with(&good) && bad.len() > good.len());
    let text = String::from_utf8(list(&bad)).expect("text");
    assert!(text.contains(&format!("capture bad at {}\n", good.len())));
}

#[test]
fn samples_are_written_into_a_directory() {
    let directory = PathBuf::from(env!("CARGO_TARGET_TMPDIR")).join("captures");
    let name = directory.to_str().expect("a name");
    written(CAPTURES, &[name], &[]);
    for sample in small_captures() {
        let file = |end| directory.join(format!("{}.{end}", sample.name));
        let capture = std::fs::read(file("capture")).expect("a capture");
        let text = std::fs::read(file("txt")).expect("a text");
        assert_eq!((capture, text), (sample.capture.clone(), sample.text()));
    }
}
