//! Holds the proved library against the second program: every answer, place, value, buffer, row,
//! key and count, for every input.
#![deny(unsafe_code)]

mod answers;
mod appends;
mod arguments;
#[path = "../../rust/src/calls.rs"]
mod calls;
mod case;
mod exhaustive;
mod expected_lines;
mod forms;
mod given_values;
mod item_numbers;
mod kept;
mod ledger;
mod lines;
mod parts;
mod random_appends;
mod reading;
mod replaying;
mod rewriting;
mod rule_sets;
mod tally;
mod text;
mod walking;
mod write_cases;
mod writing;

use std::env;
use std::process::ExitCode;

use arguments::{read_arguments, Asked, USAGE};
use parts::run_parts;

fn main() -> ExitCode {
    match read_arguments(env::args().skip(1)) {
        Ok(Asked::Help) => {
            print!("{USAGE}");
            ExitCode::SUCCESS
        }
        Ok(Asked::Run(run)) => run_parts(&run),
        Err(wrong) => {
            eprint!("differential: {wrong}\n\n{USAGE}");
            ExitCode::from(2)
        }
    }
}
