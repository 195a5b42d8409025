//! The parts of the comparison: their names, and how they are run.

use std::panic::{catch_unwind, AssertUnwindSafe};
use std::process::ExitCode;
use std::thread;

use crate::arguments::Run;
use crate::kept::{own_folder, Kept};
use crate::replaying;
use crate::tally::Tally;
use crate::{exhaustive, ledger, lines, reading, rule_sets, writing};

/// Which inputs a part takes.
pub struct Inputs {
    /// Where the random ones begin.
    pub seed: u64,
    /// How many times the usual number there are.
    scale: usize,
    /// Whether those are among them that are the same for every seed and take long.
    pub fixed: bool,
}

impl Inputs {
    /// How many there are where usually there are so many.
    pub fn count(&self, usual: usize) -> usize {
        usual.saturating_mul(self.scale)
    }
}

/// A part of the comparison.
pub struct Part {
    /// Its name on the command line.
    pub name: &'static str,
    /// Whether its inputs depend on the seed.
    has_seed: bool,
    compare: fn(tally: &mut Tally, inputs: &Inputs),
}

const fn part(name: &'static str, compare: fn(&mut Tally, &Inputs)) -> Part {
    Part {
        name,
        has_seed: true,
        compare,
    }
}

/// All parts.
pub static PARTS: [Part; 6] = [
    part("reading", reading::compare_all),
    part("writing", writing::compare_all),
    part("ledger", ledger::compare_all),
    part("rule-sets", rule_sets::compare_all),
    part("lines", lines::compare_all),
    Part {
        has_seed: false,
        ..part("exhaustive", exhaustive::compare_all)
    },
];

/// Compares, and ends the tally. Where that panics it ends with a difference.
fn tallied<'a>(mut tally: Tally<'a>, compare: impl FnOnce(&mut Tally<'a>)) -> Tally<'a> {
    let compared = catch_unwind(AssertUnwindSafe(|| compare(&mut tally)));
    if compared.is_err() {
        tally.broke_off();
    }
    tally.end();
    tally
}

/// Runs a part on the inputs of one of the seeds.
fn run_part<'a>(run: &Run, kept: &'a Kept, part: &Part, turn: usize) -> Tally<'a> {
    let inputs = Inputs {
        seed: run.seeds[turn],
        scale: run.scale,
        fixed: turn == 0,
    };
    let name = match part.has_seed && run.seeds.len() > 1 {
        true => format!("{}, seed {}", part.name, inputs.seed),
        false => part.name.into(),
    };
    let tally = Tally::new(name, kept, run.first);
    tallied(tally, |tally| (part.compare)(tally, &inputs))
}

/// Compares on the kept cases, then runs the parts side by side on the inputs of each seed; status 1
/// where something differs.
pub fn run_parts(run: &Run) -> ExitCode {
    let seeds: Vec<String> = run.seeds.iter().map(u64::to_string).collect();
    println!("seed {} scale {}", seeds.join(" "), run.scale);
    let file = format!("seed-{}.txt", seeds.join("-"));
    let kept = match Kept::read(own_folder(), file) {
        Ok(kept) => kept,
        Err(wrong) => {
            eprintln!("differential: {}: {wrong}", own_folder().display());
            return ExitCode::from(1);
        }
    };
    let cases = Tally::new("cases".into(), &kept, run.first);
    let mut sums = Sums::default();
    sums.add(&tallied(cases, |tally| {
        replaying::compare_all(tally, &kept)
    }));
    thread::scope(|scope| {
        let kept = &kept;
        let mut running = Vec::new();
        for part in &run.parts {
            let turns = if part.has_seed { run.seeds.len() } else { 1 };
            let begin = |turn| scope.spawn(move || run_part(run, kept, part, turn));
            running.extend((0..turns).map(begin));
        }
        for part in running {
            match part.join() {
                Ok(tally) => sums.add(&tally),
                Err(_) => sums.differences += 1,
            }
        }
    });
    sums.end(&kept)
}

/// The sums over all parts.
#[derive(Default)]
struct Sums {
    inputs: u64,
    differences: u64,
}

impl Sums {
    /// Adds a part that has ended, and prints its line.
    fn add(&mut self, tally: &Tally) {
        println!("{}", tally.summary());
        self.inputs += tally.inputs();
        self.differences += tally.differences();
    }

    /// Prints the last lines, and gives the status.
    fn end(&self, kept: &Kept) -> ExitCode {
        for line in replaying::kept_in_vain(kept) {
            println!("a kept case does not show the difference again:\n  {line}");
        }
        println!("{} inputs, {} differences", self.inputs, self.differences);
        match self.differences {
            0 => ExitCode::SUCCESS,
            _ => ExitCode::from(1),
        }
    }
}
