//! Lists the capture given on standard input to standard output.

use std::io::{ErrorKind, Read, Write};
use std::process::ExitCode;

use conformance::listing::list;

fn main() -> ExitCode {
    if let Some(argument) = std::env::args_os().nth(1) {
        eprintln!("list: it takes no arguments, but {argument:?} was given");
        eprintln!("usage: list < CAPTURE (lists the capture given on standard input)");
        return ExitCode::from(2);
    }
    match run() {
        // Whoever closed the output wants no more of it.
        Err(error) if error.kind() != ErrorKind::BrokenPipe => {
            eprintln!("list: {error}");
            ExitCode::FAILURE
        }
        _ => ExitCode::SUCCESS,
    }
}

/// Reads the whole capture, then writes the whole text.
fn run() -> std::io::Result<()> {
    let mut capture = Vec::new();
    std::io::stdin().lock().read_to_end(&mut capture)?;
    let mut out = std::io::stdout().lock();
    out.write_all(&list(&capture))?;
    out.flush()
}
