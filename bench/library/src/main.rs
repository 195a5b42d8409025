//! Does a task many times with the proved library (`ours`) or with the second program (`second`),
//! for measuring, and prints a sum of what it found, which is the same on both sides.

#[path = "../../../rust/src/calls.rs"]
#[allow(dead_code)] // the calls that are not measured
mod calls;
mod ledger;
mod reading;
mod rule_sets;
mod writing;

use std::env;
use std::fs;
use std::process::ExitCode;

const USAGE: &str = "usage: library ours|second TASK TURNS FILE
  read    accepts or refuses the datagram in FILE
  walk    the same, then all values of all samples
  write   writes the datagram in FILE again from its values
  ledger  enters one flow sample of the next source in FILE (six words each: the agent's type and
          four words, the source id)
  check   checks the rule set in FILE (a word with its length, the rule set, a flow sample)
  run     runs it on the flow sample behind it
It prints the sum of what it found in all turns.";

/// Whose functions are called.
#[derive(Clone, Copy, PartialEq, Eq)]
pub enum Side {
    /// The proved library's.
    Ours,
    /// The second program's.
    Second,
}

/// The side, the turns and the octets of the file.
pub struct Work {
    side: Side,
    turns: u32,
    octets: Vec<u8>,
}

/// Adds up what the task finds in all turns.
pub fn repeated(turns: u32, mut task: impl FnMut(u32) -> u64) -> u64 {
    (1..=turns).fold(0, |sum, turn| sum.wrapping_add(task(turn)))
}

/// The word at an offset; 0 where there is none.
pub fn word(octets: &[u8], at: usize) -> u32 {
    let found = octets.get(at..).and_then(<[u8]>::first_chunk);
    found.map_or(0, |word| u32::from_be_bytes(*word))
}

fn done(arguments: &[String]) -> Result<u64, String> {
    let [side, task, turns, file] = arguments else {
        return Err(USAGE.into());
    };
    let side = match side.as_str() {
        "ours" => Side::Ours,
        "second" => Side::Second,
        _ => return Err(USAGE.into()),
    };
    let turns = turns.parse().map_err(|_| USAGE)?;
    let octets = fs::read(file).map_err(|error| format!("{file}: {error}"))?;
    let work = Work {
        side,
        turns,
        octets,
    };
    match task.as_str() {
        "read" => reading::read(work),
        "walk" => reading::walk(work),
        "write" => writing::write(work),
        "ledger" => ledger::enter(work),
        "check" => rule_sets::check(work),
        "run" => rule_sets::run(work),
        _ => Err(USAGE.into()),
    }
}

fn main() -> ExitCode {
    let arguments: Vec<String> = env::args().skip(1).collect();
    match done(&arguments) {
        Ok(sum) => println!("{sum}"),
        Err(why) => {
            eprintln!("library: {why}");
            return ExitCode::FAILURE;
        }
    }
    ExitCode::SUCCESS
}
