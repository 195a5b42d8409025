//! Kept cases: which comparison each kind of them goes to.

use crate::case::{Case, Wrong};
use crate::kept::Kept;
use crate::tally::Tally;
use crate::{ledger, lines, reading, rule_sets, writing};

/// Compares on the input of a line.
fn compare_line(tally: &mut Tally, line: &str) -> Result<(), Wrong> {
    let case = Case::read(line)?;
    tally.kept_input(&case);
    match case.kind() {
        "datagram" | "items" => reading::compare_case(tally, &case),
        "rule-set" | "run" => rule_sets::compare_case(tally, &case),
        "ledger" | "short-ledger" => ledger::compare_case(tally, &case),
        "listing" | "lines" | "short-state" | "end-lines" => lines::compare_case(tally, &case),
        _ => writing::compare_case(tally, &case),
    }
}

/// Compares on all cases that were kept before. A line that is no case counts as a difference.
pub fn compare_all(tally: &mut Tally, kept: &Kept) {
    for line in kept.old_lines() {
        if let Err(wrong) = compare_line(tally, &line) {
            tally.wrong_case(&line, &wrong);
        }
    }
}

/// The cases kept in this run that show no difference when they are read again: they are kept in
/// vain.
pub fn kept_in_vain(kept: &Kept) -> Vec<String> {
    let is_in_vain = |line: &String| {
        let mut tally = Tally::silent(kept);
        let compared = compare_line(&mut tally, line);
        compared.is_err() || tally.differences() == 0
    };
    kept.new_lines().into_iter().filter(is_in_vain).collect()
}
