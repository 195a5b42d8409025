//! The count of a part's inputs, comparisons and differences.

use std::panic::{catch_unwind, resume_unwind, AssertUnwindSafe};
use std::process::exit;
use std::time::{Duration, Instant};

use crate::case::Case;
use crate::kept::Kept;

/// How many differences of a part are printed and kept; the others are only counted. As many panics
/// end it.
const PRINTED: u64 = 3;

/// What a difference is printed with.
pub struct Told {
    /// The input.
    pub input: Case,
    /// What the proved library answered.
    pub ours: String,
    /// What the second program answered.
    pub second: String,
}

/// The counts of a part that is run.
pub struct Tally<'a> {
    part: String,
    kept: &'a Kept,
    /// Whether the first difference ends the program.
    first: bool,
    printed: u64,
    panics: u64,
    /// Whether the inputs are kept ones, and the room of the arrays of the present one.
    replays: bool,
    room: Option<usize>,
    begun: Instant,
    took: Duration,
    inputs: u64,
    comparisons: u64,
    differences: u64,
}

impl<'a> Tally<'a> {
    /// The counts of a part before its first input. The inputs of its differences are kept.
    pub fn new(part: String, kept: &'a Kept, first: bool) -> Tally<'a> {
        Tally {
            part,
            kept,
            first,
            printed: PRINTED,
            panics: 0,
            replays: false,
            room: None,
            begun: Instant::now(),
            took: Duration::ZERO,
            inputs: 0,
            comparisons: 0,
            differences: 0,
        }
    }

    /// The counts of one input that is compared again; nothing is printed or kept.
    pub fn silent(kept: &'a Kept) -> Tally<'a> {
        Tally {
            printed: 0,
            ..Tally::new(String::new(), kept, false)
        }
    }

    /// Counts an input.
    pub fn input(&mut self) {
        self.inputs += 1;
    }

    /// Counts an input that was kept, and takes the room of its arrays from it if it says one.
    pub fn kept_input(&mut self, case: &Case) {
        self.inputs += 1;
        self.replays = true;
        self.room = case.number_of("room").ok();
    }

    /// The room of an array that is lent: that of the kept input, otherwise the usual one.
    pub fn room(&self, usual: usize) -> usize {
        self.room.unwrap_or(usual)
    }

    /// The inputs so far.
    pub fn inputs(&self) -> u64 {
        self.inputs
    }

    /// The comparisons so far.
    pub fn comparisons(&self) -> u64 {
        self.comparisons
    }

    /// The differences so far.
    pub fn differences(&self) -> u64 {
        self.differences
    }

    /// Counts a comparison of what a function answered; the first ones that are not the same are
    /// printed, and their inputs kept.
    pub fn compare(&mut self, same: bool, function: &str, told: impl FnOnce() -> Told) {
        self.comparisons += 1;
        if same {
            return;
        }
        self.differences += 1;
        if self.differences <= self.printed {
            let told = told();
            self.print(function, &told);
            if !self.replays {
                println!("  {}", self.kept.keep(&told.input));
            }
        }
        self.end_at_the_first();
    }

    /// Compares on an input; a panic of either program is a difference.
    pub fn guarded(&mut self, input: &dyn Fn() -> Case, compare: impl FnOnce(&mut Tally<'a>)) {
        let Err(panic) = catch_unwind(AssertUnwindSafe(|| compare(self))) else {
            return;
        };
        self.panics += 1;
        self.compare(false, "a call that panics", || Told {
            input: input(),
            ours: "see above".into(),
            second: "see above".into(),
        });
        if self.panics == PRINTED {
            resume_unwind(panic);
        }
    }

    fn end_at_the_first(&self) {
        if self.first {
            println!("{}: ended at the first difference", self.part);
            exit(1);
        }
    }

    /// The part has ended.
    pub fn end(&mut self) {
        self.took = self.begun.elapsed();
    }

    /// Counts a difference for a panic, which ended the part.
    pub fn broke_off(&mut self) {
        self.differences += 1;
        println!("{}: broke off at input {}", self.part, self.inputs);
        self.end_at_the_first();
    }

    /// Counts a difference for a kept line that is no input.
    pub fn wrong_case(&mut self, line: &str, wrong: &str) {
        self.differences += 1;
        println!("{}: {wrong}, in the line\n  {line}", self.part);
    }

    fn print(&self, function: &str, told: &Told) {
        let after = self.begun.elapsed().as_secs_f64() * 1000.0;
        println!(
            "{}: difference {} in {function}, at input {} after {after:.1} ms\n  input   {}\n  ours    {}\n  second  {}",
            self.part, self.differences, self.inputs, told.input, told.ours, told.second
        );
    }

    /// The part's line.
    pub fn summary(&self) -> String {
        format!(
            "{}: {} inputs, {} comparisons, {} differences, {:.2} s",
            self.part,
            self.inputs,
            self.comparisons,
            self.differences,
            self.took.as_secs_f64()
        )
    }
}
