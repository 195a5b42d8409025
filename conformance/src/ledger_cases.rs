//! Situations of the ledger, written by hand: operations on an empty table,
//! and the answers that the scope and its readings state for them.

use crate::ledger::*;
use crate::ledger_records::*;
use crate::row_cases::row_cases;

/// A situation. The table is empty before it.
#[derive(Clone, Debug, PartialEq, Eq)]
pub struct Situation {
    /// What it is about.
    pub words: &'static str,
    /// The operations in their order.
    pub records: Vec<Record>,
    /// The answers to its samples, in their order; 0 is entered.
    pub stated: Vec<u32>,
}

/// All situations.
pub fn situations() -> Vec<Situation> {
    [
        step_situations(),
        pool_situations(),
        total_situations(),
        row_situations(),
        lent_situations(),
        identity_situations(),
        left_over_situations(),
        full_situations(),
        known_in_full_tables(),
        rows_of_cases(),
        vec![passed_over()],
    ]
    .concat()
}

/// The records of all situations. Each begins with an emptied table and ends
/// with a shown one.
pub fn situation_records() -> Vec<Record> {
    let whole = |situation: Situation| {
        let records = [vec![empty_record()], situation.records, vec![show_record()]];
        records.concat()
    };
    situations().into_iter().flat_map(whole).collect()
}

fn situation(words: &'static str, records: Vec<Record>, stated: &[u32]) -> Situation {
    Situation {
        words,
        records,
        stated: stated.to_vec(),
    }
}

/// Agent 10.0.0.7 with this source id.
fn source(id: u32) -> Source {
    of_type(IPV4, &[10, 0, 0, 7], id)
}

/// An address of this type that begins with these octets, the rest 0.
fn of_type(address_type: u32, first: &[u8], id: u32) -> Source {
    let mut address = [0; 16];
    for (octet, &given) in address.iter_mut().zip(first) {
        *octet = given;
    }
    Source {
        address_type,
        address,
        id,
    }
}

fn numbers(source: Source, sequence: u32, pool: u32) -> SampleNumbers {
    SampleNumbers {
        source,
        sequence,
        pool,
    }
}

fn entered(source: Source, sequence: u32, pool: u32) -> Record {
    enter_record(&numbers(source, sequence, pool))
}

fn lent(number: u32, source: Source, sequence: u32, pool: u32) -> Record {
    lend_record(number, &numbers(source, sequence, pool))
}

/// A row in use for this source, with some totals.
fn used_row(source: Source, sequence: u32, pool: u32) -> Row {
    Row {
        lost_total: 3,
        pool_total: 500,
        ..Row::opened(&numbers(source, sequence, pool))
    }
}

fn set(number: u32, source: Source, sequence: u32, pool: u32) -> Record {
    set_record(number, &used_row(source, sequence, pool))
}

/// The same contents in a free row.
fn set_free(number: u32, source: Source, sequence: u32, pool: u32) -> Record {
    let row = Row {
        used: false,
        ..used_row(source, sequence, pool)
    };
    set_record(number, &row)
}

/// Samples of one source with these sequence numbers and pools.
fn series(pairs: &[(u32, u32)]) -> Vec<Record> {
    let record = |&(sequence, pool): &(u32, u32)| entered(source(1), sequence, pool);
    pairs.iter().map(record).collect()
}

/// Samples of one source, and the answers stated for them.
fn of_one(words: &'static str, pairs: &[(u32, u32)], stated: &[u32]) -> Situation {
    situation(words, series(pairs), stated)
}

/// Case 17, then steps of the sequence number.
fn step_situations() -> Vec<Situation> {
    let half = 1 << 31;
    let top = u32::MAX;
    vec![
        of_one("case 17", &[(7, 4294967290), (9, 10)], &[0, 0]),
        of_one("step 0", &[(7, 5), (7, 6), (8, 7)], &[0, 41, 0]),
        of_one("step 2^31", &[(7, 5), (half + 7, 6)], &[0, 42]),
        of_one("step 2^31 - 1", &[(7, 5), (half + 6, 6)], &[0, 0]),
        of_one("step 2^31 + 1", &[(7, 5), (half + 8, 6)], &[0, 42]),
        of_one("one back", &[(7, 5), (6, 6), (8, 7)], &[0, 42, 0]),
        of_one("back behind 0", &[(0, 5), (top, 6), (0, 6)], &[0, 42, 41]),
        of_one("wrap", &[(top, 1), (0, 2), (2, 3)], &[0, 0, 0]),
        of_one("wide wrap", &[(top, 1), (half - 2, 2)], &[0, 0]),
        of_one("too wide wrap", &[(top, 1), (half - 1, 2)], &[0, 42]),
        of_one("any first", &[(top, top), (top, 0)], &[0, 41]),
        of_one("after 42", &[(9, 1), (5, 2), (10, 4)], &[0, 42, 0]),
    ]
}

/// Pools that wrap, go back or come with a refused sample.
fn pool_situations() -> Vec<Situation> {
    let top = u32::MAX;
    vec![
        of_one("pool wrap", &[(1, top), (2, 0), (3, top)], &[0, 0, 0]),
        of_one("pool back", &[(1, 10), (2, 9), (3, 9)], &[0, 0, 0]),
        of_one("refused pool", &[(1, 10), (1, 90), (2, 11)], &[0, 41, 0]),
    ]
}

/// One sample to a row with these totals: step 4, pool difference 10.
fn with_totals(words: &'static str, lost_total: u64, pool_total: u64) -> Situation {
    let row = Row {
        lost_total,
        pool_total,
        ..used_row(source(1), 20, 300)
    };
    let records = vec![
        set_record(2, &row),
        show_record(),
        entered(source(1), 24, 310),
    ];
    situation(words, records, &[0])
}

/// Totals near 2^64 and 2^32.
fn total_situations() -> Vec<Situation> {
    let top = u64::MAX;
    let word = u64::from(u32::MAX);
    vec![
        with_totals("totals to 2^64 - 1", top - 3, top - 10),
        with_totals("totals to 0", top - 2, top - 9),
        with_totals("totals over 2^64", top, top),
        with_totals("totals over 2^32", word, word),
        with_totals("totals over 2^63", top >> 1, top >> 1),
    ]
}

/// Which row the table's entry takes.
fn row_situations() -> Vec<Situation> {
    let own = source(1);
    let below = vec![set(4, own, 40, 1), entered(own, 41, 2), entered(own, 41, 3)];
    vec![
        two_rows("the lowest of two", entered(own, 51, 2), 0),
        two_rows("the lowest gives 41", entered(own, 30, 2), 41),
        two_rows("the lowest gives 42", entered(own, 29, 2), 42),
        situation("a free row below", below, &[0, 41]),
        situation("the lowest free", gap(), &[0, 0]),
        situation("sources in turn", turns(), &[0, 0, 0, 0, 41, 0]),
    ]
}

/// A sample for a source that has two rows.
fn two_rows(words: &'static str, last: Record, stated: u32) -> Situation {
    let own = source(1);
    let records = vec![set(5, own, 50, 1), set(3, own, 30, 1), last];
    situation(words, records, &[stated])
}

/// New sources where a free row stands between used ones.
fn gap() -> Vec<Record> {
    let other = source(2);
    vec![
        set(0, other, 9, 9),
        set(1, other, 8, 8),
        set(3, other, 7, 7),
        entered(source(1), 1, 1),
        entered(source(3), 2, 2),
    ]
}

/// Two sources whose samples come in turn.
fn turns() -> Vec<Record> {
    let (one, two) = (source(1), source(2));
    vec![
        entered(one, 7, 70),
        entered(two, 700, 7000),
        entered(one, 8, 80),
        entered(two, 710, 7100),
        entered(one, 8, 85),
        entered(one, 10, 90),
    ]
}

/// One lent row.
fn lent_situations() -> Vec<Situation> {
    let own = source(1);
    let free = vec![lent(9, own, 5, 6), lent(9, own, 6, 8)];
    let last = vec![lent(63, own, 1, 1), lent(63, source(2), 2, 2)];
    vec![
        situation("a free row lent", free, &[0, 0]),
        situation("43 at any step", others_lent(), &[43, 43, 43]),
        situation("the own row lent", own_lent(), &[0, 41, 42, 42, 0]),
        situation("opened by lending", second_row(), &[0, 0, 0, 0, 41]),
        situation("the last row", last, &[0, 43]),
    ]
}

/// Another's row lent, with steps 1, 0 and back.
fn others_lent() -> Vec<Record> {
    let own = source(1);
    vec![
        set(6, source(2), 60, 1),
        show_record(),
        lent(6, own, 61, 2),
        lent(6, own, 60, 2),
        lent(6, own, 59, 2),
    ]
}

/// The source's row lent, with steps 3, 0, back, 2^31 and 2^31 - 1.
fn own_lent() -> Vec<Record> {
    let own = source(1);
    vec![
        set(6, own, 60, 1),
        lent(6, own, 63, 2),
        lent(6, own, 63, 3),
        lent(6, own, 62, 4),
        lent(6, own, 0x8000_003f, 5),
        lent(6, own, 0x8000_003e, 6),
    ]
}

/// A second row of a source, opened by lending first above and then below.
fn second_row() -> Vec<Record> {
    let own = source(1);
    vec![
        lent(8, own, 5, 6),
        lent(2, own, 5, 7),
        show_record(),
        entered(own, 6, 10),
        lent(8, own, 7, 11),
        entered(own, 6, 12),
    ]
}

/// What makes two sources one.
fn identity_situations() -> Vec<Situation> {
    let mut all: Vec<Situation> = [0, 2, 3, u32::MAX].map(all_sixteen).into();
    let ids = [1, 0, 0x0100_0001, 0x8000_0001].map(|id| entered(source(id), 7, 7));
    let types =
        [1, 0, 2, 3, 0x101, u32::MAX].map(|kind| entered(of_type(kind, &[10, 0, 0, 7], 1), 7, 7));
    all.push(first_four());
    all.push(situation("source ids", ids.to_vec(), &[0; 4]));
    all.push(situation("types", types.to_vec(), &[0; 6]));
    all
}

/// A type that compares all 16 octets.
fn all_sixteen(address_type: u32) -> Situation {
    let one = of_type(address_type, &[10, 0, 0, 7], 1);
    let fifth = of_type(address_type, &[10, 0, 0, 7, 1], 1);
    let mut last = one;
    last.address[15] = 1;
    let records = vec![
        entered(one, 7, 7),
        entered(fifth, 7, 7),
        entered(last, 7, 7),
        lent(0, fifth, 8, 8),
        lent(0, last, 8, 8),
        lent(0, one, 8, 8),
    ];
    situation("all 16 octets", records, &[0, 0, 0, 43, 43, 0])
}

/// Type 1, which compares 4 octets.
fn first_four() -> Situation {
    let filled = of_type(
        IPV4,
        &[10, 0, 0, 7, 1, 2, 3, 4, 5, 6, 7, 8, 9, 10, 11, 12],
        1,
    );
    let fourth = of_type(IPV4, &[10, 0, 0, 8], 1);
    let first = of_type(IPV4, &[11, 0, 0, 7], 1);
    let records = vec![
        entered(filled, 7, 7),
        entered(source(1), 8, 8),
        lent(0, source(1), 8, 9),
        lent(0, of_type(IPV4, &[10, 0, 0, 7, 9], 1), 9, 9),
        lent(0, fourth, 10, 9),
        lent(0, first, 10, 9),
        entered(fourth, 7, 7),
        entered(first, 7, 7),
    ];
    situation(
        "the first 4 octets of type 1",
        records,
        &[0, 0, 41, 0, 43, 43, 0, 0],
    )
}

/// Free rows that hold something.
fn left_over_situations() -> Vec<Situation> {
    let (own, other) = (source(1), source(2));
    let elsewhere = vec![set(4, own, 40, 1), entered(own, 41, 2)];
    vec![
        left_over("another's left over", other, vec![entered(own, 7, 71)]),
        left_over("own left over", own, vec![entered(own, 7, 71)]),
        left_over(
            "another's left over, lent",
            other,
            vec![lent(0, own, 6, 71)],
        ),
        left_over("own left over, lent", own, vec![lent(0, own, 6, 71)]),
        left_over("left over below the own row", own, elsewhere),
    ]
}

/// A free row with what was this source's, then a sample that is entered.
fn left_over(words: &'static str, kept: Source, more: Vec<Record>) -> Situation {
    let first = vec![set_free(0, kept, 7, 70), show_record()];
    situation(words, [first, more].concat(), &[0])
}

/// Rows of 64 sources with the ids from 100 on.
fn filled() -> Vec<Record> {
    (0..64)
        .map(|n| entered(source(100 + n), n, 2 * n))
        .collect()
}

/// Answers to `filled` and then these.
fn filled_then(more: &[u32]) -> Vec<u32> {
    [&[0; 64], more].concat()
}

/// A table without free rows, or nearly so.
fn full_situations() -> Vec<Situation> {
    let more = vec![
        show_record(),
        entered(source(1), 1, 1),
        entered(source(100), 0, 5),
        entered(source(163), 62, 5),
        lent(63, source(1), 64, 5),
        show_record(),
        entered(source(163), 65, 130),
        entered(source(100), 1, 3),
        entered(source(164), 9, 9),
    ];
    let stated = filled_then(&[40, 41, 42, 43, 0, 0, 40]);
    vec![
        situation("64 other sources", [filled(), more].concat(), &stated),
        one_free(0),
        one_free(31),
        one_free(63),
        one_source_everywhere(),
    ]
}

/// A full table but for one row with left-over contents, then two new sources.
fn one_free(number: u32) -> Situation {
    let last = vec![
        set_free(number, source(1), 7, 70),
        show_record(),
        entered(source(1), 7, 71),
        entered(source(2), 7, 71),
        entered(source(1), 8, 72),
    ];
    situation(
        "one free row",
        [filled(), last].concat(),
        &filled_then(&[0, 40, 0]),
    )
}

/// All rows belong to one source.
fn one_source_everywhere() -> Situation {
    let mut records: Vec<Record> = (0..64).map(|n| set(n, source(1), 10, n)).collect();
    records.push(entered(source(1), 11, 5));
    records.push(entered(source(2), 11, 5));
    records.push(lent(40, source(1), 12, 50));
    situation("all rows of one source", records, &[0, 40, 0])
}

/// A full table and sources that have a row in it, the first, a middle and the
/// last, at every step; other sources get 40, whatever their numbers.
fn known_in_full_tables() -> Vec<Situation> {
    let mut all = Vec::new();
    for n in [0_u32, 31, 63] {
        let known = |step: u32| entered(source(100 + n), n.wrapping_add(step), 2 * n);
        let mut near = source(100 + n);
        near.address[3] ^= 1;
        let new = |step: u32| entered(near, n.wrapping_add(step), 2 * n);
        let (half, top) = (1 << 31, u32::MAX);
        let more = vec![
            known(0),
            new(0),
            known(half),
            new(half),
            known(top),
            new(1),
            show_record(),
            known(half - 1),
            new(half - 1),
        ];
        let stated = filled_then(&[41, 40, 42, 40, 42, 40, 0, 40]);
        all.push(situation(
            "known in a full table",
            [filled(), more].concat(),
            &stated,
        ));
    }
    all
}

/// The situations of single rows, 64 to a table: all rows are set, shown, and
/// lent in turn.
fn rows_of_cases() -> Vec<Situation> {
    let tables = row_cases();
    let tables = tables.chunks(64).map(|cases| {
        let rows = (0..).zip(cases);
        let set = rows.clone().map(|(n, own)| set_record(n, &own.before));
        let lent = rows.map(|(n, own)| lend_record(n, &own.sample));
        let records = set.chain([show_record()]).chain(lent).collect();
        let answers: Vec<u32> = cases
            .iter()
            .map(|own| own.stated.err().unwrap_or(0))
            .collect();
        situation("single rows", records, &answers)
    });
    tables.collect()
}

/// Records that are passed over.
fn passed_over() -> Situation {
    let row = used_row(source(2), 5, 5);
    let mut unknown = set(0, source(2), 5, 5);
    unknown[0] = 5;
    let mut far = lent(0, source(2), 5, 5);
    far[0] = u32::MAX;
    let records = vec![
        entered(source(1), 7, 7),
        unknown,
        far,
        set_record(64, &row),
        set_record(u32::MAX, &row),
        lend_record(64, &numbers(source(1), 8, 8)),
        entered(source(1), 8, 8),
    ];
    situation("passed over", records, &[0, 0])
}
