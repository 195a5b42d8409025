//! The ledger's vectors: the situations, then the random runs of a seed.

use crate::ledger_cases::situation_records;
use crate::ledger_records::{octets_of_records, show_record, Record, RECORD_OCTETS};
use crate::ledger_runs::random_records;

/// All records for a seed.
pub fn ledger_records(seed: u64) -> Vec<Record> {
    [situation_records(), random_records(seed)].concat()
}

/// The records as a file. A show that lacks its last octet stands at the end.
pub fn ledger_file(records: &[Record]) -> Vec<u8> {
    let cut = octets_of_records(&[show_record()]);
    let cut = cut.into_iter().take(RECORD_OCTETS - 1);
    octets_of_records(records).into_iter().chain(cut).collect()
}
