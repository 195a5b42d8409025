//! The ledger: runs of operations, with the whole table after each.

use conformance::inputs::ledger_runs;
use conformance::ledger::{enter, LedgerFault, Row, SampleNumbers, Source, Table, ROWS};
use conformance::ledger_records::{row_of, sample_of, Record, EMPTY, ENTER, LEND, SET};
use conformance::random::Random;

use crate::answers::FILL;
use crate::calls;
use crate::case::{Case, Wrong};
use crate::given_values::address_octets;
use crate::item_numbers::address_words;
use crate::parts::Inputs;
use crate::tally::{Tally, Told};

/// Runs at scale 1.
const RUNS: usize = 1_000;

/// The numbers of a table, and of one of its rows.
const NUMBERS: usize = 704;
const COLUMNS: usize = 11;

/// Numbers that lie behind the table; they stay.
const BEHIND: usize = 5;

/// The library's table with numbers behind it, and the second program's.
struct Tables {
    ours: Vec<u64>,
    second: Table,
}

/// Compares on the runs of a seed.
pub fn compare_all(tally: &mut Tally, inputs: &Inputs) {
    let mut random = Random::new(!inputs.seed);
    for run in ledger_runs(inputs.seed).take(inputs.count(RUNS)) {
        let mut tables = Tables::empty();
        let before = tally.differences();
        for record in &run {
            tables.carry_out(tally, &mut random, record);
            // Behind a difference the tables are no longer the same.
            if tally.differences() > before {
                break;
            }
        }
    }
}

/// Compares on a kept input.
pub fn compare_case(tally: &mut Tally, case: &Case) -> Result<(), Wrong> {
    let sample = sample_of_words(case.array_of("sample")?);
    let mut tables = Tables::of_rows(&case.numbers_of("rows")?)?;
    match case.kind() {
        "ledger" => tables.enter(tally, &sample),
        _ => tables.enter_in_short_table(tally, case.number_of("length")?, &sample),
    }
    Ok(())
}

/// A table and a sample as a case: the sample's words, and each row that is not all zero behind its
/// number.
fn ledger_case(kind: &str, table: &[u64], sample: &SampleNumbers) -> Case {
    let rows = table.chunks_exact(COLUMNS).take(ROWS).enumerate();
    let rows = rows.filter(|(_, row)| row.iter().any(|&number| number != 0));
    let numbers = rows.flat_map(|(at, row)| [&[at as u64], row].concat());
    Case::new(kind)
        .numbers("sample", words_of_sample(sample))
        .numbers("rows", numbers)
}

/// A sample's address type, address, source id, sequence number and pool.
fn words_of_sample(sample: &SampleNumbers) -> [u32; 8] {
    let [a, b, c, d] = address_words(&sample.source.address);
    let kind = sample.source.address_type;
    [
        kind,
        a,
        b,
        c,
        d,
        sample.source.id,
        sample.sequence,
        sample.pool,
    ]
}

fn sample_of_words([kind, a, b, c, d, id, sequence, pool]: [u32; 8]) -> SampleNumbers {
    let source = Source {
        address_type: kind,
        address: address_octets([a, b, c, d]),
        id,
    };
    SampleNumbers {
        source,
        sequence,
        pool,
    }
}

/// The row that a table's numbers tell; columns 1 to 8 count by their low words.
fn row_of_numbers(numbers: &[u64; COLUMNS]) -> Row {
    let [used, kind, a, b, c, d, id, sequence, pool, lost_total, pool_total] = *numbers;
    let words = [kind, a, b, c, d, id, sequence, pool].map(|number| number as u32);
    let sample = sample_of_words(words);
    Row {
        used: used != 0,
        source: sample.source,
        sequence: sample.sequence,
        pool: sample.pool,
        lost_total,
        pool_total,
    }
}

impl Tables {
    fn empty() -> Tables {
        let mut ours = vec![0; NUMBERS];
        ours.resize(NUMBERS + BEHIND, FILL);
        Tables {
            ours,
            second: Table::default(),
        }
    }

    /// Both tables with these rows, each behind its number.
    fn of_rows(rows: &[u64]) -> Result<Tables, Wrong> {
        let mut tables = Tables::empty();
        let (rows, rest) = rows.as_chunks::<{ COLUMNS + 1 }>();
        for [at, numbers @ ..] in rows {
            let place = usize::try_from(*at).ok().filter(|&at| at < ROWS);
            let at = place.ok_or(format!("there is no row {at}"))?;
            tables.second.rows[at] = row_of_numbers(numbers);
            tables.ours[COLUMNS * at..][..COLUMNS].copy_from_slice(numbers);
        }
        match rest {
            [] => Ok(tables),
            _ => Err(format!("rows= takes {} numbers for each", COLUMNS + 1)),
        }
    }

    /// Carries an operation out on both tables. The library has no lending of one row: such a
    /// sample is entered.
    fn carry_out(&mut self, tally: &mut Tally, random: &mut Random, record: &Record) {
        match record[0] {
            EMPTY => *self = Tables::empty(),
            SET => self.set(random, record),
            ENTER | LEND => {
                tally.input();
                let sample = sample_of(record);
                if random.below(16) == 0 {
                    let length = short_length(random);
                    self.enter_in_short_table(tally, length, &sample);
                }
                self.enter(tally, &sample);
            }
            _ => {}
        }
    }

    /// Sets a row. Now and then the library's has numbers that mean the same: any that is not 0
    /// for a row in use, and columns 1 to 8 with any high word.
    fn set(&mut self, random: &mut Random, record: &Record) {
        let number = record[1] as usize;
        let Some(row) = self.second.rows.get_mut(number) else {
            return;
        };
        *row = row_of(record);
        let mut numbers = row_numbers(row);
        if random.below(4) == 0 {
            let high = random.hyper() & !u64::from(u32::MAX);
            numbers[1..9].iter_mut().for_each(|own| *own |= high);
            numbers[0] *= random.hyper() | 1;
        }
        let to = self.ours.iter_mut().skip(COLUMNS * number);
        to.zip(numbers).for_each(|(to, from)| *to = from);
    }

    /// Enters a sample in both tables and compares the answers and all numbers.
    fn enter(&mut self, tally: &mut Tally, sample: &SampleNumbers) {
        let before = self.ours.clone();
        let input = || ledger_case("ledger", &before, sample);
        tally.guarded(&input, |tally| {
            let rows = self.second.rows;
            let (table, _) = self.ours.split_at_mut(NUMBERS);
            let ours = call(table, sample);
            let second = enter(&mut self.second, sample).map_or_else(LedgerFault::number, |()| 0);
            let expected = with_changed_rows(&before, rows.iter().zip(&self.second.rows));
            let same = ours == second && self.ours == expected;
            tally.compare(same, "sflow4_ledger", || Told {
                input: input(),
                ours: format!("{ours} {}", changes(&before, &self.ours)),
                second: format!("{second} {}", changes(&before, &expected)),
            });
        });
    }

    /// A table of fewer numbers is refused and stays.
    fn enter_in_short_table(&mut self, tally: &mut Tally, length: usize, sample: &SampleNumbers) {
        let before = self.ours.clone();
        let number = call(&mut self.ours[..length.min(NUMBERS - 1)], sample);
        let same = number == 99 && self.ours == before;
        tally.compare(same, "sflow4_ledger", || Told {
            input: ledger_case("short-ledger", &before, sample).number("length", length),
            ours: format!("{number} {}", changes(&before, &self.ours)),
            second: "99, nothing changed (the header)".into(),
        });
    }
}

/// A length that is too short for a table.
fn short_length(random: &mut Random) -> usize {
    match random.below(2) {
        0 => NUMBERS - 1,
        _ => random.below(NUMBERS),
    }
}

/// Enters a sample in the library's table.
fn call(table: &mut [u64], sample: &SampleNumbers) -> u32 {
    let Source {
        address_type,
        address,
        id,
    } = sample.source;
    let agent = (address_type, address_words(&address));
    calls::ledger(table, agent, [id, sample.sequence, sample.pool])
}

/// The numbers of a row.
fn row_numbers(row: &Row) -> [u64; COLUMNS] {
    let [a, b, c, d] = address_words(&row.source.address).map(u64::from);
    [
        row.used.into(),
        row.source.address_type.into(),
        a,
        b,
        c,
        d,
        row.source.id.into(),
        row.sequence.into(),
        row.pool.into(),
        row.lost_total,
        row.pool_total,
    ]
}

/// A table's numbers with those of each row that changed; every other number stays, whatever it is.
fn with_changed_rows<'a>(
    before: &[u64],
    rows: impl Iterator<Item = (&'a Row, &'a Row)>,
) -> Vec<u64> {
    let mut numbers = before.to_vec();
    for ((old, new), own) in rows.zip(numbers.chunks_mut(COLUMNS)) {
        if old != new {
            own.copy_from_slice(&row_numbers(new));
        }
    }
    numbers
}

/// The numbers that changed, each with its index.
fn changes(before: &[u64], after: &[u64]) -> String {
    let both = before.iter().zip(after).enumerate();
    let changed = both.filter(|(_, (old, new))| old != new);
    let shown: Vec<(usize, u64)> = changed.map(|(index, (_, new))| (index, *new)).collect();
    format!("changed {shown:?}")
}

#[cfg(test)]
mod tests {
    use super::*;

    #[test]
    fn a_kept_table_is_read_again() {
        let mut ours = Tables::empty();
        for (at, number) in [
            (3 * COLUMNS, 9),
            (63 * COLUMNS + 10, u64::MAX),
            (70, 1 << 40),
        ] {
            ours.ours[at] = number;
        }
        let sample = sample_of_words([1, 2, 3, 4, 5, 6, 7, 8]);
        let case = ledger_case("ledger", &ours.ours, &sample);
        let again = Case::read(&case.to_string()).expect("a case");
        assert_eq!(again, case);
        let rows = again.numbers_of("rows").expect("rows");
        let tables = Tables::of_rows(&rows).expect("tables");
        assert_eq!(tables.ours, ours.ours);
        assert!(tables.second.rows[3].used);
        assert_eq!(tables.second.rows[63].pool_total, u64::MAX);
        assert_eq!(again.array_of("sample"), Ok(words_of_sample(&sample)));
    }
}
