//! Writes the test vectors into the directory given as argument: the file
//! `stdin` with their octets and the file `stdout` with the answers, for the
//! reader in the directory itself, for the others in its directories `ledger`,
//! `attributes`, `check` and `engine`.

use std::io::Write;
use std::path::Path;
use std::process::ExitCode;

use conformance::attribute_vectors::{attribute_answers, attribute_file, attribute_vectors};
use conformance::check_vectors::{check_answers, check_file, check_vectors};
use conformance::engine_vectors::{engine_answers, engine_file, engine_vectors};
use conformance::ledger_records::ledger_answers;
use conformance::ledger_vectors::{ledger_file, ledger_records};
use conformance::vectors::{answers, framed, vectors, SEED};

fn main() -> ExitCode {
    let Some(directory) = std::env::args_os().nth(1) else {
        eprintln!("usage: vectors DIRECTORY");
        return ExitCode::FAILURE;
    };
    match write_all(Path::new(&directory)) {
        Ok(()) => ExitCode::SUCCESS,
        Err(error) => {
            eprintln!("vectors: {error}");
            ExitCode::FAILURE
        }
    }
}

/// Writes the files of all parts.
fn write_all(directory: &Path) -> std::io::Result<()> {
    let set = vectors(SEED);
    let (octets, text) = (framed(&set), answers(&set));
    write(directory, &octets, &text)?;
    say("vectors", set.len(), octets.len(), text.len())?;
    let records = ledger_records(SEED);
    let octets = ledger_file(&records);
    let text = ledger_answers(&octets);
    write(&directory.join("ledger"), &octets, &text)?;
    say("ledger operations", records.len(), octets.len(), text.len())?;
    write_rules(directory)
}

/// Writes the files of the attributes, the check and the engine.
fn write_rules(directory: &Path) -> std::io::Result<()> {
    let octets = attribute_file(&attribute_vectors(SEED));
    write_part(
        directory,
        "attributes",
        &octets,
        &attribute_answers(&octets),
    )?;
    let octets = check_file(&check_vectors(SEED));
    write_part(directory, "check", &octets, &check_answers(&octets))?;
    let octets = engine_file(&engine_vectors(SEED));
    write_part(directory, "engine", &octets, &engine_answers(&octets))
}

/// Writes both files of a part into its directory; each line is an answer.
fn write_part(directory: &Path, name: &str, octets: &[u8], text: &str) -> std::io::Result<()> {
    write(&directory.join(name), octets, text)?;
    say(name, text.lines().count(), octets.len(), text.len())
}

/// Writes both files of a set.
fn write(directory: &Path, octets: &[u8], text: &str) -> std::io::Result<()> {
    std::fs::create_dir_all(directory)?;
    std::fs::write(directory.join("stdin"), octets)?;
    std::fs::write(directory.join("stdout"), text)
}

/// Says how many vectors and octets a set has.
fn say(what: &str, count: usize, octets: usize, text: usize) -> std::io::Result<()> {
    writeln!(
        std::io::stdout(),
        "{what} {count} stdin {octets} stdout {text}"
    )
}
