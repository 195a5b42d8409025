//! The program's arguments.

use std::hash::{BuildHasher, RandomState};

use crate::parts::{Part, PARTS};

/// What is printed for `--help`, and behind what is wrong with the arguments.
pub const USAGE: &str = "\
Usage: differential [--seed N|new].. [--scale N] [--first] [PART..]

Compares the proved library with the second program: first on the kept cases (differential/cases),
then on the inputs of its parts. Without a PART all are run:
  reading     datagrams, their samples, extended entries and path segments
  writing     calls of the writers; accepted datagrams written again
  ledger      runs of flow samples on a table of 64 rows
  rule-sets   the check and the engine
  lines       captures listed whole and in parts
  exhaustive  every beginning and every changed octet of short inputs
--seed N   where the random inputs begin, 1 if it is not given; 'new' takes any, which is printed.
           Several are run one beside the other, what does not depend on the seed only once
--scale N  N times as many random inputs
--first    ends at the first difference
The status is 0 where all answers are the same, 1 where some differ, 2 for wrong arguments.
";

/// What the arguments ask for.
pub enum Asked {
    /// The text above.
    Help,
    /// Parts to run.
    Run(Run),
}

/// Which parts are run, and on which inputs.
pub struct Run {
    /// Where the random inputs begin; at least one.
    pub seeds: Vec<u64>,
    /// Multiplies the number of random inputs.
    pub scale: usize,
    /// Whether the first difference ends the run.
    pub first: bool,
    /// The parts, in the order they were named.
    pub parts: Vec<&'static Part>,
}

/// The seed that is taken where none is given.
const USUAL_SEED: u64 = 1;

/// Reads the arguments, or says what is wrong with them.
pub fn read_arguments(mut arguments: impl Iterator<Item = String>) -> Result<Asked, String> {
    let mut run = Run {
        seeds: Vec::new(),
        scale: 1,
        first: false,
        parts: Vec::new(),
    };
    while let Some(argument) = arguments.next() {
        match argument.as_str() {
            "--help" | "-h" => return Ok(Asked::Help),
            "--seed" => run.seeds.push(seed(arguments.next())?),
            "--scale" => run.scale = scale(number(&argument, arguments.next())?)?,
            "--first" => run.first = true,
            name => run.parts.push(part(name)?),
        }
    }
    if run.seeds.is_empty() {
        run.seeds.push(USUAL_SEED);
    }
    if run.parts.is_empty() {
        run.parts.extend(&PARTS);
    }
    Ok(Asked::Run(run))
}

/// A seed: a number, or a new one, short enough to be typed again.
fn seed(given: Option<String>) -> Result<u64, String> {
    match given.as_deref() {
        Some("new") => Ok(RandomState::new().hash_one(()) % 1_000_000_000),
        _ => number("--seed", given),
    }
}

/// The number behind an option.
fn number(option: &str, given: Option<String>) -> Result<u64, String> {
    let given = given.ok_or(format!("{option} needs a number behind it"))?;
    let wrong = |_| format!("{option} needs a number of at most 64 bits, not '{given}'");
    given.parse().map_err(wrong)
}

/// A scale: 1 to 1,000,000.
fn scale(number: u64) -> Result<usize, String> {
    match usize::try_from(number) {
        Ok(scale) if (1..=1_000_000).contains(&scale) => Ok(scale),
        _ => Err(format!("--scale is 1 to 1000000, not {number}")),
    }
}

/// The part with this name.
fn part(name: &str) -> Result<&'static Part, String> {
    let found = PARTS.iter().find(|part| part.name == name);
    found.ok_or_else(|| match name.starts_with('-') {
        true => format!("there is no option {name}"),
        false => format!("there is no part '{name}'"),
    })
}
