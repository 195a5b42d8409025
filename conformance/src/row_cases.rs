//! Situations of one row of the ledger, written by hand: the row, a sample
//! that it is lent for, and the row afterwards or the refusal.

use crate::ledger::{Row, SampleNumbers, Source, IPV4};

/// A situation of a row.
#[derive(Clone, Debug, PartialEq, Eq)]
pub struct RowCase {
    /// What it is about.
    pub words: String,
    /// The row before.
    pub before: Row,
    /// The sample.
    pub sample: SampleNumbers,
    /// The row afterwards; or the refusal, which leaves it as it was.
    pub stated: Result<Row, u32>,
}

/// All situations. Each has source ids of its own.
pub fn row_cases() -> Vec<RowCase> {
    let all = [
        steps(),
        others_rows(),
        octets_that_do_not_count(),
        other_types(),
        free_rows(),
        pools(),
        totals(),
    ];
    let numbered = all.concat().into_iter().enumerate();
    let with_ids = |(turn, mut case): (usize, RowCase)| {
        let more = 0x1000 + 16 * turn as u32;
        case.before.source.id += more;
        case.sample.source.id += more;
        if let Ok(row) = &mut case.stated {
            row.source.id += more;
        }
        case
    };
    numbered.map(with_ids).collect()
}

/// The octets 10, 0, 0, 7, then 1 to 12, as an address of this type.
fn source(address_type: u32) -> Source {
    Source {
        address_type,
        address: [10, 0, 0, 7, 1, 2, 3, 4, 5, 6, 7, 8, 9, 10, 11, 12],
        id: 5,
    }
}

/// A row in use with totals 3 and 500.
fn row(source: Source, sequence: u32, pool: u32) -> Row {
    Row {
        used: true,
        source,
        sequence,
        pool,
        lost_total: 3,
        pool_total: 500,
    }
}

fn sample(source: Source, sequence: u32, pool: u32) -> SampleNumbers {
    SampleNumbers {
        source,
        sequence,
        pool,
    }
}

fn case(words: &str, before: Row, sample: SampleNumbers, stated: Result<Row, u32>) -> RowCase {
    RowCase {
        words: words.into(),
        before,
        sample,
        stated,
    }
}

/// Steps of the sequence number, and the samples lost or the refusal.
const STEPS: [(u32, Result<u64, u32>); 7] = [
    (0, Err(41)),
    (1, Ok(0)),
    (2, Ok(1)),
    (0x7fff_ffff, Ok(2_147_483_646)),
    (0x8000_0000, Err(42)),
    (0x8000_0001, Err(42)),
    (0xffff_ffff, Err(42)),
];

/// The sample that a source's row gets after so many steps, with a pool that
/// is 4 more, and what comes of it.
fn after_step(words: &str, kept: Row, came: Source, step: u32, lost: Result<u64, u32>) -> RowCase {
    let sequence = kept.sequence.wrapping_add(step);
    let stated = lost.map(|lost| Row {
        sequence,
        pool: kept.pool + 4,
        lost_total: kept.lost_total + lost,
        pool_total: kept.pool_total + 4,
        ..kept
    });
    let words = format!("{words}, step {step} from {}", kept.sequence);
    case(&words, kept, sample(came, sequence, kept.pool + 4), stated)
}

/// Every step from every kind of number.
fn steps() -> Vec<RowCase> {
    let mut cases = Vec::new();
    let own = source(IPV4);
    for kept in [0, 7, 0x7fff_ffff, 0x8000_0000, u32::MAX] {
        for (step, lost) in STEPS {
            cases.push(after_step("own row", row(own, kept, 60), own, step, lost));
        }
    }
    cases
}

/// 43 at every step: another id, type or octet that counts.
fn others_rows() -> Vec<RowCase> {
    let (own, long) = (source(IPV4), source(2));
    let changed = |mut source: Source, place: usize| {
        source.address[place] ^= 0x80;
        source
    };
    let others = [
        (own, Source { id: 6, ..own }),
        (own, source(2)),
        (source(0), own),
        (own, changed(own, 0)),
        (own, changed(own, 3)),
        (long, changed(long, 3)),
        (long, changed(long, 4)),
        (long, changed(long, 15)),
        (source(3), changed(source(3), 15)),
    ];
    let mut cases = Vec::new();
    for (kept, came) in others {
        for (step, _) in STEPS {
            let before = row(kept, 7, 60);
            cases.push(after_step("another's row", before, came, step, Err(43)));
        }
    }
    cases
}

/// Type 1 does not look at octets 4 to 15; the row keeps its own.
fn octets_that_do_not_count() -> Vec<RowCase> {
    let own = source(IPV4);
    let mut cases = Vec::new();
    for places in [4..5, 15..16, 4..16] {
        let mut came = own;
        for octet in &mut came.address[places] {
            *octet ^= 0xff;
        }
        for (step, lost) in STEPS {
            cases.push(after_step("type 1", row(own, 7, 60), came, step, lost));
        }
    }
    cases
}

/// Types other than 1 and 2 are sources like others.
fn other_types() -> Vec<RowCase> {
    let mut cases = Vec::new();
    for address_type in [0, 2, 3, 0x0100_0001, u32::MAX] {
        let own = source(address_type);
        for (step, lost) in STEPS {
            let words = format!("type {address_type}");
            cases.push(after_step(&words, row(own, 7, 60), own, step, lost));
        }
    }
    cases
}

/// A free row is opened with any number, whatever it holds.
fn free_rows() -> Vec<RowCase> {
    let own = source(IPV4);
    let mut cases = Vec::new();
    for left_over in [own, source(2), Source { id: 6, ..own }] {
        for (step, _) in STEPS {
            let used = false;
            let before = Row {
                used,
                ..row(left_over, 7, 60)
            };
            let came = sample(own, 7_u32.wrapping_add(step), 64);
            let opened = Row {
                lost_total: 0,
                pool_total: 0,
                ..row(own, came.sequence, 64)
            };
            cases.push(case("free row", before, came, Ok(opened)));
        }
    }
    cases
}

/// Pools, and their difference modulo 2^32.
fn pools() -> Vec<RowCase> {
    let own = source(IPV4);
    let of = |(kept, came, difference): (u32, u32, u64)| {
        let after = Row {
            pool_total: 500 + difference,
            ..row(own, 8, came)
        };
        let words = format!("pool {kept}, then {came}");
        case(&words, row(own, 7, kept), sample(own, 8, came), Ok(after))
    };
    [
        (0, 0, 0),
        (0, 1, 1),
        (1, 0, 4_294_967_295),
        (u32::MAX, 0, 1),
        (0, u32::MAX, 4_294_967_295),
        (u32::MAX, u32::MAX, 0),
        (10, 0x8000_000a, 2_147_483_648),
        (0x8000_0000, 0, 2_147_483_648),
        (4_294_967_290, 10, 16),
    ]
    .map(of)
    .into()
}

/// Totals, each modulo 2^64: the step is 3, the pool goes 10 on or 10 back.
fn totals() -> Vec<RowCase> {
    let own = source(IPV4);
    let top = u64::MAX;
    let of = |(lost, lost_after, pool, came, pool_after): (u64, u64, u64, u32, u64)| {
        let with = |lost_total, pool_total, row: Row| Row {
            lost_total,
            pool_total,
            ..row
        };
        let before = with(lost, pool, row(own, 20, 300));
        let after = with(lost_after, pool_after, row(own, 23, came));
        let words = format!("totals {lost} and {pool}");
        case(&words, before, sample(own, 23, came), Ok(after))
    };
    [
        (top, 1, top, 310, 9),
        (top - 1, 0, top - 9, 310, 0),
        (top - 2, top, top - 10, 310, top),
        (0xffff_ffff, 0x1_0000_0001, 0xffff_ffff, 310, 0x1_0000_0009),
        (top >> 1, (1 << 63) + 1, top >> 1, 310, (1 << 63) + 9),
        (0, 2, top, 290, 4_294_967_285),
        (0, 2, 0, 290, 4_294_967_286),
        (0, 2, top - 4_294_967_285, 290, 0),
    ]
    .map(of)
    .into()
}
