//! The files of the ledger's vectors: `stdin` is records of 16 words, one for
//! each operation on a table, `stdout` the answers and the rows as text.

use std::fmt::Write;

use crate::ledger::*;

/// The words of an operation; the first says which.
pub type Record = [u32; 16];

/// The octets of a record.
pub const RECORD_OCTETS: usize = 64;

/// Frees all rows.
pub const EMPTY: u32 = 0;
/// Gives a row any contents.
pub const SET: u32 = 1;
/// Enters a sample in the table.
pub const ENTER: u32 = 2;
/// Lends a row for a sample.
pub const LEND: u32 = 3;
/// Shows all rows.
pub const SHOW: u32 = 4;

/// A record of which only the operation is looked at.
fn bare(operation: u32) -> Record {
    let mut record = Record::default();
    record[0] = operation;
    record
}

/// Frees all rows and makes them zero.
pub fn empty_record() -> Record {
    bare(EMPTY)
}

/// Shows all rows.
pub fn show_record() -> Record {
    bare(SHOW)
}

/// Gives a row these contents.
pub fn set_record(number: u32, row: &Row) -> Record {
    let sample = SampleNumbers {
        source: row.source,
        sequence: row.sequence,
        pool: row.pool,
    };
    let mut record = sample_record(SET, number, &sample);
    record[10] = u32::from(row.used);
    [record[11], record[12]] = halves(row.lost_total);
    [record[13], record[14]] = halves(row.pool_total);
    record
}

/// Enters a sample in the table.
pub fn enter_record(sample: &SampleNumbers) -> Record {
    sample_record(ENTER, 0, sample)
}

/// Lends a row for a sample.
pub fn lend_record(number: u32, sample: &SampleNumbers) -> Record {
    sample_record(LEND, number, sample)
}

fn sample_record(operation: u32, number: u32, sample: &SampleNumbers) -> Record {
    let mut record = bare(operation);
    record[1] = number;
    record[2] = sample.source.address_type;
    [record[3], record[4], record[5], record[6]] = address_words(&sample.source.address);
    record[7] = sample.source.id;
    record[8] = sample.sequence;
    record[9] = sample.pool;
    record
}

/// The high word and the low word.
fn halves(hyper: u64) -> [u32; 2] {
    [(hyper >> 32) as u32, hyper as u32]
}

/// The number with this high and this low word.
fn whole(high: u32, low: u32) -> u64 {
    u64::from(high) << 32 | u64::from(low)
}

/// An address's octets as big-endian words.
fn address_words(address: &[u8; 16]) -> [u32; 4] {
    let all = u128::from_be_bytes(*address);
    [96, 64, 32, 0].map(|shift| (all >> shift) as u32)
}

/// The octets of an address given as big-endian words.
fn address_octets(words: [u32; 4]) -> [u8; 16] {
    let join = |high: u128, word: u32| high << 32 | u128::from(word);
    words.into_iter().fold(0, join).to_be_bytes()
}

/// The sample that a record tells.
pub fn sample_of(record: &Record) -> SampleNumbers {
    SampleNumbers {
        source: Source {
            address_type: record[2],
            address: address_octets([record[3], record[4], record[5], record[6]]),
            id: record[7],
        },
        sequence: record[8],
        pool: record[9],
    }
}

/// The row contents that a record tells.
pub fn row_of(record: &Record) -> Row {
    let sample = sample_of(record);
    Row {
        used: record[10] == 1,
        source: sample.source,
        sequence: sample.sequence,
        pool: sample.pool,
        lost_total: whole(record[11], record[12]),
        pool_total: whole(record[13], record[14]),
    }
}

/// The row that a record names, if there is one of that number.
fn row_named<'a>(table: &'a mut Table, record: &Record) -> Option<&'a mut Row> {
    let number = usize::try_from(record[1]).ok()?;
    table.rows.get_mut(number)
}

/// Carries a record out on the table and gives its lines.
pub fn carry_out(table: &mut Table, record: &Record) -> String {
    match record[0] {
        EMPTY => *table = Table::default(),
        SET => {
            if let Some(row) = row_named(table, record) {
                *row = row_of(record);
            }
        }
        ENTER => return answer_line(enter(table, &sample_of(record))),
        LEND => {
            if let Some(row) = row_named(table, record) {
                return answer_line(lend(row, &sample_of(record)));
            }
        }
        SHOW => return table_lines(table),
        _ => {}
    }
    String::new()
}

/// The line of an answer.
fn answer_line(answer: Result<(), LedgerFault>) -> String {
    let number = answer.map_or_else(LedgerFault::number, |()| 0);
    format!("answer {number}\n")
}

/// The lines of all rows.
fn table_lines(table: &Table) -> String {
    let rows = table.rows.iter().enumerate();
    rows.map(|(number, row)| row_line(number, row)).collect()
}

/// The line of a row.
fn row_line(number: usize, row: &Row) -> String {
    let used = u32::from(row.used);
    let mut line = format!("row {number} {used} {}", row.source.address_type);
    let kept = [row.source.id, row.sequence, row.pool];
    for word in address_words(&row.source.address).iter().chain(&kept) {
        let _ = write!(line, " {word}");
    }
    let _ = writeln!(line, " {} {}", row.lost_total, row.pool_total);
    line
}

/// The records as octets.
pub fn octets_of_records(records: &[Record]) -> Vec<u8> {
    let words = records.iter().flatten();
    words.flat_map(|word| word.to_be_bytes()).collect()
}

/// The records of a file; a cut one at its end is left out.
pub fn records_of(file: &[u8]) -> Vec<Record> {
    let word = |octets: &[u8]| {
        octets
            .iter()
            .fold(0, |high, &low| high << 8 | u32::from(low))
    };
    let record = |octets: &[u8]| {
        let mut words = octets.chunks(4).map(word);
        std::array::from_fn(|_| words.next().unwrap_or(0))
    };
    file.chunks_exact(RECORD_OCTETS).map(record).collect()
}

/// The text that answers a file of records, from an empty table on.
pub fn ledger_answers(file: &[u8]) -> String {
    let mut table = Table::default();
    let records = records_of(file);
    let lines = records.iter().map(|record| carry_out(&mut table, record));
    lines.collect()
}
