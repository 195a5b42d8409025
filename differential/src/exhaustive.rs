//! Every beginning and every changed octet of short inputs.

use conformance::inputs::{flow_samples, octet_changes, rule_octet_changes, truncations};

use crate::parts::Inputs;
use crate::reading::{compare_datagram, compare_items_at};
use crate::rule_sets::{compare_check, compare_run};
use crate::tally::Tally;

/// The seed of the samples that changed rule sets are run on.
const SAMPLES: u64 = 1;

/// Compares on all of them. Every item is read at every offset of every beginning, and at an
/// offset of every changed datagram.
pub fn compare_all(tally: &mut Tally, _: &Inputs) {
    for octets in truncations() {
        tally.input();
        compare_datagram(tally, &octets);
        for at in 0..=octets.len() + 1 {
            compare_items_at(tally, &octets, at);
        }
    }
    for octets in octet_changes() {
        tally.input();
        compare_datagram(tally, &octets);
        let at = tally.inputs() as usize % (octets.len() + 1);
        compare_items_at(tally, &octets, at);
    }
    for (set, sample) in rule_octet_changes().zip(flow_samples(SAMPLES)) {
        tally.input();
        compare_check(tally, &set);
        compare_run(tally, &set, &sample);
    }
}
