//! Writes captures: samples with the texts that a lister must print into a
//! directory, random ones and ones for timing to standard output.

use std::io::{BufWriter, ErrorKind, Write};
use std::path::Path;
use std::process::ExitCode;

use conformance::captures::{large_captures, small_captures, NamedCapture};
use conformance::random_captures::{bad_end, random_records};
use conformance::timing_captures::{counters_records, flow_records};

const USAGE: &str = "usage:
  captures DIRECTORY               small samples, NAME.capture and NAME.txt each
  captures DIRECTORY large         the same and large ones
  captures random SEED COUNT       a random capture of COUNT records
  captures random SEED COUNT bad   the same with a bad end
  captures flows COUNT             COUNT datagrams with flow samples, for timing
  captures counters COUNT          COUNT datagrams with counter samples, for timing
A directory named random, flows or counters is written as ./random and so on.";

fn main() -> ExitCode {
    let given = std::env::args_os().skip(1);
    let arguments: Option<Vec<String>> = given.map(|own| own.into_string().ok()).collect();
    let Some(done) = arguments.and_then(|own| run(&own)) else {
        eprintln!("{USAGE}");
        return ExitCode::from(2);
    };
    match done {
        // Whoever closed the output wants no more of it.
        Err(error) if error.kind() != ErrorKind::BrokenPipe => {
            eprintln!("captures: {error}");
            ExitCode::FAILURE
        }
        _ => ExitCode::SUCCESS,
    }
}

/// Does what the arguments ask for; nothing where they ask for nothing known.
fn run(arguments: &[String]) -> Option<std::io::Result<()>> {
    let arguments: Vec<&str> = arguments.iter().map(String::as_str).collect();
    match arguments[..] {
        ["random", seed, count] => Some(random(seed.parse().ok()?, count.parse().ok()?, false)),
        ["random", seed, count, "bad"] => {
            Some(random(seed.parse().ok()?, count.parse().ok()?, true))
        }
        ["flows", count] => Some(write_records(flow_records().take(count.parse().ok()?))),
        ["counters", count] => Some(write_records(counters_records().take(count.parse().ok()?))),
        ["random" | "flows" | "counters", ..] => None,
        [directory] => Some(write_samples(directory, small_captures())),
        [directory, "large"] => {
            let all = [small_captures(), large_captures()].concat();
            Some(write_samples(directory, all))
        }
        _ => None,
    }
}

/// Writes a random capture, with a bad end if asked for.
fn random(seed: u64, count: usize, bad: bool) -> std::io::Result<()> {
    let end = bad.then(|| bad_end(seed));
    write_records(random_records(seed).take(count).chain(end))
}

/// Writes records to standard output one after the other.
fn write_records(records: impl Iterator<Item = Vec<u8>>) -> std::io::Result<()> {
    let mut out = BufWriter::new(std::io::stdout().lock());
    for record in records {
        out.write_all(&record)?;
    }
    out.flush()
}

/// Writes both files of each sample, and says which.
fn write_samples(directory: &str, samples: Vec<NamedCapture>) -> std::io::Result<()> {
    let directory = Path::new(directory);
    std::fs::create_dir_all(directory)?;
    let mut out = std::io::stdout().lock();
    for sample in samples {
        let (name, text) = (sample.name, sample.text());
        std::fs::write(directory.join(format!("{name}.capture")), &sample.capture)?;
        std::fs::write(directory.join(format!("{name}.txt")), &text)?;
        let (octets, text) = (sample.capture.len(), text.len());
        writeln!(out, "{name} capture {octets} text {text}")?;
    }
    Ok(())
}
