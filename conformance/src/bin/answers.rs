//! Reads framed vectors (as in the file `stdin` of the program `vectors`)
//! from standard input and writes the answers to standard output.

use std::io::{Read, Write};
use std::process::ExitCode;

use conformance::dump::answer;
use conformance::vectors::unframed;

fn main() -> ExitCode {
    match run() {
        Ok(true) => ExitCode::SUCCESS,
        Ok(false) => {
            eprintln!("answers: the input is cut short");
            ExitCode::FAILURE
        }
        Err(error) => {
            eprintln!("answers: {error}");
            ExitCode::FAILURE
        }
    }
}

/// Answers every vector; false where the input is cut short.
fn run() -> std::io::Result<bool> {
    let mut input = Vec::new();
    std::io::stdin().lock().read_to_end(&mut input)?;
    let Some(strings) = unframed(&input) else {
        return Ok(false);
    };
    let mut out = std::io::stdout().lock();
    for octets in strings {
        out.write_all(answer(octets).as_bytes())?;
    }
    Ok(true)
}
