//! Entering flow samples in a ledger: one in each turn, of the sources in their order and again from
//! the first. The answers count, and in the end the whole table.

use std::hint::black_box;

use conformance::ledger::{self, LedgerFault, Row, SampleNumbers, Source, Table};

use crate::{calls, repeated, word, Side, Work};

/// The octets of a source in the file.
const SOURCE: usize = 24;

/// The numbers of a ledger's table.
const NUMBERS: usize = 704;

pub fn enter(work: Work) -> Result<u64, String> {
    if work.octets.is_empty() || work.octets.len() % SOURCE != 0 {
        return Err("FILE does not hold sources of six words each".into());
    }
    let sources = work.octets.chunks_exact(SOURCE);
    Ok(match work.side {
        Side::Ours => ours(work.turns, &sources.map(words_of).collect::<Vec<_>>()),
        Side::Second => second(work.turns, &sources.map(source_of).collect::<Vec<_>>()),
    })
}

/// The next source, its sequence number and sample pool: every third sample is lost.
fn next<T>(sources: &[T], turn: u32) -> (&T, u32, u32) {
    let source = &sources[turn as usize % sources.len()];
    let sequence = turn.wrapping_add(turn / 2);
    (source, sequence, sequence.wrapping_mul(512))
}

/// The agent's type and four words, the source id.
type Words = (u32, [u32; 4], u32);

fn words_of(octets: &[u8]) -> Words {
    let address = [4, 8, 12, 16].map(|at| word(octets, at));
    (word(octets, 0), address, word(octets, 20))
}

fn source_of(octets: &[u8]) -> Source {
    let mut address = [0; 16];
    address.copy_from_slice(&octets[4..20]);
    Source {
        address_type: word(octets, 0),
        address,
        id: word(octets, 20),
    }
}

fn ours(turns: u32, sources: &[Words]) -> u64 {
    let mut table = [0; NUMBERS];
    let answers = repeated(turns, |turn| {
        let (source, sequence, pool) = next(black_box(sources), turn);
        let (kind, address, id) = *source;
        calls::ledger(&mut table, (kind, address), [id, sequence, pool]).into()
    });
    table.iter().fold(answers, |sum, &n| sum.wrapping_add(n))
}

fn second(turns: u32, sources: &[Source]) -> u64 {
    let mut table = Table::default();
    let answers = repeated(turns, |turn| {
        let (&source, sequence, pool) = next(black_box(sources), turn);
        let sample = SampleNumbers {
            source,
            sequence,
            pool,
        };
        let answer = ledger::enter(&mut table, &sample);
        answer.map_or_else(LedgerFault::number, |()| 0).into()
    });
    table
        .rows
        .iter()
        .fold(answers, |sum, row| sum.wrapping_add(of_row(row)))
}

/// The sum of a row's numbers, as the library's table has them.
fn of_row(row: &Row) -> u64 {
    let address = &row.source.address;
    let words = [0, 4, 8, 12].map(|at| u64::from(word(address, at)));
    let numbers = [
        row.source.address_type,
        row.source.id,
        row.sequence,
        row.pool,
    ];
    let all = numbers.iter().map(|&n| u64::from(n)).chain(words);
    let rest = u64::from(row.used)
        .wrapping_add(row.lost_total)
        .wrapping_add(row.pool_total);
    all.fold(rest, u64::wrapping_add)
}
