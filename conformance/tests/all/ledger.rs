//! The ledger: one lent row, and the table's entry.

use conformance::ledger::LedgerFault::*;
use conformance::ledger::*;
use conformance::row_cases::row_cases;

/// Agent 10.0.0.7 with this source id.
fn source(id: u32) -> Source {
    of_type(IPV4, id)
}

/// The octets 10, 0, 0, 7 and then zeros as an address of this type.
fn of_type(address_type: u32, id: u32) -> Source {
    let mut address = [0; 16];
    address[0] = 10;
    address[3] = 7;
    Source {
        address_type,
        address,
        id,
    }
}

/// The source with this octet of its address changed.
fn changed(mut source: Source, place: usize) -> Source {
    source.address[place] ^= 0x10;
    source
}

fn sample(source: Source, sequence: u32, pool: u32) -> SampleNumbers {
    SampleNumbers {
        source,
        sequence,
        pool,
    }
}

fn row(source: Source, sequence: u32, pool: u32, totals: (u64, u64)) -> Row {
    Row {
        used: true,
        source,
        sequence,
        pool,
        lost_total: totals.0,
        pool_total: totals.1,
    }
}

/// A table with these rows, the others free.
fn table_with(rows: &[(usize, Row)]) -> Table {
    let mut table = Table::default();
    for &(number, row) in rows {
        table.rows[number] = row;
    }
    table
}

/// A table of 64 sources with the ids from 100 on.
fn full() -> Table {
    let mut table = Table::default();
    for id in 100..164 {
        assert_eq!(enter(&mut table, &sample(source(id), id, 2 * id)), Ok(()));
    }
    table
}

/// Enters samples of one source and gives the answer to the last, all before
/// it being entered, and the source's row.
fn series(pairs: &[(u32, u32)]) -> (Result<(), LedgerFault>, Row) {
    let mut table = Table::default();
    let mut last = Ok(());
    for &(sequence, pool) in pairs {
        assert_eq!(last, Ok(()));
        last = enter(&mut table, &sample(source(1), sequence, pool));
    }
    assert_eq!(table, table_with(&[(0, table.rows[0])]));
    (last, table.rows[0])
}

/// Enters a sample that must be refused, and the table stays.
fn refused(mut table: Table, sample: SampleNumbers, fault: LedgerFault) {
    let before = table.clone();
    assert_eq!(enter(&mut table, &sample), Err(fault));
    assert_eq!(table, before);
}

/// Lends a row for a sample that must be refused, and the row stays.
fn lent_refused(mut row: Row, sample: SampleNumbers, fault: LedgerFault) {
    let before = row;
    assert_eq!(lend(&mut row, &sample), Err(fault));
    assert_eq!(row, before);
}

/// Enters a sample that must be taken, and gives the table.
fn taken(mut table: Table, sample: SampleNumbers) -> Table {
    assert_eq!(enter(&mut table, &sample), Ok(()));
    table
}

#[test]
fn refusals_have_their_numbers() {
    let numbers = [Full, Repeated, Backwards, OtherSource].map(LedgerFault::number);
    assert_eq!(numbers, [40, 41, 42, 43]);
}

#[test]
fn the_first_sample_opens_a_row() {
    let (answer, first) = series(&[(u32::MAX, 1 << 31)]);
    assert_eq!(answer, Ok(()));
    assert_eq!(first, row(source(1), u32::MAX, 1 << 31, (0, 0)));
}

#[test]
fn case_17() {
    let (answer, kept) = series(&[(7, 4294967290), (9, 10)]);
    assert_eq!(answer, Ok(()));
    assert_eq!(kept, row(source(1), 9, 10, (1, 16)));
}

#[test]
fn step_0_is_41() {
    let (answer, kept) = series(&[(7, 5), (7, 6)]);
    assert_eq!(answer, Err(Repeated));
    assert_eq!(kept, row(source(1), 7, 5, (0, 0)));
}

#[test]
fn a_step_of_2_to_31_is_42() {
    let (answer, kept) = series(&[(7, 5), (0x8000_0007, 6)]);
    assert_eq!(answer, Err(Backwards));
    assert_eq!(kept, row(source(1), 7, 5, (0, 0)));
    assert_eq!(series(&[(7, 5), (6, 6)]).0, Err(Backwards));
    assert_eq!(series(&[(u32::MAX, 5), (0x7fff_ffff, 6)]).0, Err(Backwards));
}

#[test]
fn the_step_below_2_to_31_is_taken() {
    let (answer, kept) = series(&[(7, 5), (0x8000_0006, 6)]);
    assert_eq!(answer, Ok(()));
    assert_eq!(kept, row(source(1), 0x8000_0006, 6, (0x7fff_fffe, 1)));
}

#[test]
fn the_sequence_number_wraps() {
    let (answer, kept) = series(&[(u32::MAX, 5), (0, 6), (3, 7)]);
    assert_eq!(answer, Ok(()));
    assert_eq!(kept, row(source(1), 3, 7, (2, 2)));
    assert_eq!(series(&[(0, 5), (u32::MAX, 6)]).0, Err(Backwards));
}

#[test]
fn the_pool_wraps() {
    let (answer, kept) = series(&[(1, u32::MAX), (2, 0), (3, 0), (4, u32::MAX)]);
    assert_eq!(answer, Ok(()));
    assert_eq!(kept, row(source(1), 4, u32::MAX, (0, 1 << 32)));
}

#[test]
fn totals_wrap_at_2_to_64() {
    let cases = [
        ((u64::MAX - 3, u64::MAX - 10), (u64::MAX, u64::MAX)),
        ((u64::MAX - 2, u64::MAX - 9), (0, 0)),
        ((u64::MAX, u64::MAX), (2, 9)),
        (
            (u32::MAX.into(), u32::MAX.into()),
            ((1 << 32) + 2, (1 << 32) + 9),
        ),
    ];
    for (before, after) in cases {
        let table = table_with(&[(0, row(source(1), 20, 300, before))]);
        let kept = taken(table, sample(source(1), 24, 310)).rows[0];
        assert_eq!(kept, row(source(1), 24, 310, after));
    }
}

#[test]
fn after_a_refusal_the_old_numbers_count() {
    let mut table = taken(Table::default(), sample(source(1), 9, 1));
    for (sequence, fault) in [(5, Backwards), (9, Repeated), (6, Backwards)] {
        let answer = enter(&mut table, &sample(source(1), sequence, 80));
        assert_eq!(answer, Err(fault));
    }
    let table = taken(table, sample(source(1), 11, 4));
    assert_eq!(table.rows[0], row(source(1), 11, 4, (1, 3)));
}

#[test]
fn a_lent_row_of_another_source_is_43() {
    let others = row(source(2), 60, 1, (3, 500));
    for sequence in [59, 60, 61] {
        lent_refused(others, sample(source(1), sequence, 2), OtherSource);
    }
}

#[test]
fn a_lent_row_of_the_source_is_brought_up_to_date() {
    let own = row(source(1), 60, 1, (3, 500));
    lent_refused(own, sample(source(1), 60, 2), Repeated);
    lent_refused(own, sample(source(1), 59, 2), Backwards);
    let mut lent = own;
    assert_eq!(lend(&mut lent, &sample(source(1), 62, 0)), Ok(()));
    assert_eq!(lent, row(source(1), 62, 0, (4, 500 + u64::from(u32::MAX))));
}

#[test]
fn a_full_table_gives_40_to_a_new_source() {
    refused(full(), sample(source(1), 1, 1), Full);
    refused(full(), sample(changed(source(100), 0), 100, 1), Full);
}

#[test]
fn a_full_table_takes_a_source_that_has_a_row() {
    for id in [100, 131, 163] {
        refused(full(), sample(source(id), id, 9), Repeated);
        refused(full(), sample(source(id), id - 1, 9), Backwards);
        let number = (id - 100) as usize;
        let mut after = full();
        after.rows[number] = row(source(id), id + 3, 2 * id + 5, (2, 5));
        assert_eq!(taken(full(), sample(source(id), id + 3, 2 * id + 5)), after);
    }
}

#[test]
fn the_only_free_row_is_taken() {
    for number in [0, 31, 63] {
        let mut before = full();
        before.rows[number].used = false;
        let mut after = before.clone();
        after.rows[number] = row(source(1), 7, 8, (0, 0));
        assert_eq!(taken(before, sample(source(1), 7, 8)), after);
    }
}

#[test]
fn the_lowest_of_two_rows_of_a_source_counts() {
    let (low, high) = (row(source(1), 30, 1, (3, 5)), row(source(1), 50, 1, (0, 6)));
    let table = table_with(&[(3, low), (5, high)]);
    let updated = row(source(1), 51, 4, (23, 8));
    let after = table_with(&[(3, updated), (5, high)]);
    assert_eq!(taken(table.clone(), sample(source(1), 51, 4)), after);
    refused(table.clone(), sample(source(1), 30, 4), Repeated);
    refused(table, sample(source(1), 29, 4), Backwards);
}

#[test]
fn a_free_row_below_the_own_row_is_not_taken() {
    let table = table_with(&[(4, row(source(1), 40, 1, (0, 0)))]);
    let after = table_with(&[(4, row(source(1), 41, 3, (0, 2)))]);
    assert_eq!(taken(table.clone(), sample(source(1), 41, 3)), after);
    refused(table, sample(source(1), 40, 3), Repeated);
}

#[test]
fn a_new_source_takes_the_lowest_free_row() {
    let other = row(source(2), 9, 9, (0, 0));
    let table = table_with(&[(0, other), (1, other), (3, other)]);
    let opened = row(source(1), 5, 6, (0, 0));
    let after = table_with(&[(0, other), (1, other), (2, opened), (3, other)]);
    assert_eq!(taken(table, sample(source(1), 5, 6)), after);
}

#[test]
fn type_1_compares_4_octets() {
    let first = row(source(1), 7, 7, (0, 0));
    for place in 4..16 {
        let came = sample(changed(source(1), place), 8, 9);
        let after = table_with(&[(0, row(source(1), 8, 9, (0, 2)))]);
        assert_eq!(taken(table_with(&[(0, first)]), came), after);
        let mut lent = first;
        assert_eq!(lend(&mut lent, &came), Ok(()));
        assert_eq!(lent, after.rows[0]);
    }
    for place in 0..4 {
        lent_refused(first, sample(changed(source(1), place), 8, 9), OtherSource);
    }
}

#[test]
fn other_types_compare_16_octets() {
    for address_type in [0, 2, 3, u32::MAX] {
        let own = of_type(address_type, 1);
        let first = row(own, 7, 7, (0, 0));
        for place in 0..16 {
            let came = sample(changed(own, place), 8, 9);
            lent_refused(first, came, OtherSource);
            let after = table_with(&[(0, first), (1, row(came.source, 8, 9, (0, 0)))]);
            assert_eq!(taken(table_with(&[(0, first)]), came), after);
        }
    }
}

#[test]
fn types_and_source_ids_tell_sources_apart() {
    for address_type in [0, 2, 3, 0x101, u32::MAX] {
        let first = row(source(1), 7, 7, (0, 0));
        lent_refused(first, sample(of_type(address_type, 1), 8, 8), OtherSource);
    }
    for id in [0, 2, 0x0100_0001, 0x8000_0001] {
        let first = row(source(1), 7, 7, (0, 0));
        lent_refused(first, sample(source(id), 8, 8), OtherSource);
    }
}

#[test]
fn a_free_row_opens_clean() {
    for kept in [source(1), source(2), of_type(2, 1)] {
        let mut free = row(kept, 7, 70, (3, u64::MAX));
        free.used = false;
        let opened = row(source(1), 7, 71, (0, 0));
        let came = sample(source(1), 7, 71);
        let after = table_with(&[(0, opened)]);
        assert_eq!(taken(table_with(&[(0, free)]), came), after);
        assert_eq!(lend(&mut free, &came), Ok(()));
        assert_eq!(free, opened);
    }
}

#[test]
fn left_over_contents_do_not_count_as_a_row_of_the_source() {
    let mut free = row(source(1), 7, 70, (3, 5));
    free.used = false;
    let own = row(source(1), 40, 1, (0, 0));
    let table = table_with(&[(0, free), (4, own)]);
    let after = table_with(&[(0, free), (4, row(source(1), 41, 2, (0, 1)))]);
    assert_eq!(taken(table, sample(source(1), 41, 2)), after);
}

#[test]
fn a_row_opened_by_lending_counts_when_it_is_the_lowest() {
    let mut table = table_with(&[(8, row(source(1), 5, 6, (0, 0)))]);
    let came = sample(source(1), 5, 7);
    assert_eq!(lend(&mut table.rows[2], &came), Ok(()));
    let high = table.rows[8];
    let table = taken(table, sample(source(1), 6, 10));
    assert_eq!(table.rows[2], row(source(1), 6, 10, (0, 3)));
    assert_eq!(table.rows[8], high);
}

/// A row lent by itself, and one of a full table, in which the same comes of
/// a source that has its row there.
#[test]
fn situations_of_rows_are_answered_as_stated() {
    for case in row_cases() {
        let mut lent = case.before;
        let answer = lend(&mut lent, &case.sample).map_err(LedgerFault::number);
        assert_eq!(answer, case.stated.map(|_| ()), "{}", case.words);
        assert_eq!(lent, case.stated.unwrap_or(case.before), "{}", case.words);
        if case.stated == Err(43) {
            continue;
        }
        for number in [0, 40, 63] {
            let mut table = full();
            table.rows[number] = case.before;
            let mut after = table.clone();
            after.rows[number] = case.stated.unwrap_or(case.before);
            let answer = enter(&mut table, &case.sample).map_err(LedgerFault::number);
            assert_eq!(answer, case.stated.map(|_| ()), "{}", case.words);
            assert_eq!(table, after, "{}", case.words);
        }
    }
}

#[test]
fn a_full_table_gives_40_to_every_source_without_a_row() {
    for case in row_cases().iter().filter(|case| case.stated == Err(43)) {
        let mut table = full();
        table.rows[7] = case.before;
        refused(table, case.sample, Full);
    }
}
