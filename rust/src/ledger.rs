//! The ledger of lost flow samples.
use crate::address;
use crate::calls;
use crate::refusal::EntryRefusal;
use crate::sample::FlowWords;
use crate::source_id::SourceId;
use std::net::IpAddr;

/// How many numbers a ledger's table has: 64 rows of 11.
pub const LEDGER_NUMBERS: usize = 704;

/// A ledger of up to 64 sources of flow samples: what each has lost.
///
/// ```
/// use troutgable::{EntryRefusal, FlowWords, Ledger};
///
/// let agent = "10.0.0.7".parse().unwrap();
/// let flow = |sequence_number, sample_pool| FlowWords { sequence_number, sample_pool, ..FlowWords::default() };
/// let mut ledger = Ledger::new();
/// ledger.enter(agent, &flow(7, 4294967290))?;
/// ledger.enter(agent, &flow(9, 10))?;
/// assert_eq!(ledger.enter(agent, &flow(9, 20)), Err(EntryRefusal::Repeated));
///
/// let row = ledger.rows().next().unwrap();
/// assert_eq!((row.agent, row.lost_total, row.pool_total), (agent, 1, 16));
/// # Ok::<(), EntryRefusal>(())
/// ```
#[derive(Clone, Debug, PartialEq, Eq)]
pub struct Ledger {
    table: [u64; LEDGER_NUMBERS],
}

impl Ledger {
    /// A ledger without sources.
    pub fn new() -> Ledger {
        Ledger::from_table([0; LEDGER_NUMBERS])
    }

    /// The ledger that a table is, as [`table`](Ledger::table) gave it. A row is eleven numbers:
    /// used (0 where it is free), agent type, the address's four words, source id, sequence number,
    /// sample pool (each modulo 2^32), lost total, pool total.
    pub fn from_table(table: [u64; LEDGER_NUMBERS]) -> Ledger {
        Ledger { table }
    }

    /// The table's numbers.
    pub fn table(&self) -> &[u64; LEDGER_NUMBERS] {
        &self.table
    }

    /// Enters a flow sample of an agent: the numbers of its row change, and no others. Refuses a
    /// 65th source (40), the sequence number that is kept (41) and one that went back (42); a
    /// refusal changes no number.
    pub fn enter(&mut self, agent: IpAddr, flow: &FlowWords) -> Result<(), EntryRefusal> {
        let sample = [flow.source_id.0, flow.sequence_number, flow.sample_pool];
        match calls::ledger(&mut self.table, address::to_words(agent), sample) {
            0 => Ok(()),
            number => Err(EntryRefusal::of(number)),
        }
    }

    /// The rows that belong to a source, in the table's order.
    pub fn rows(&self) -> impl Iterator<Item = Row> + '_ {
        self.table.chunks_exact(11).filter_map(Row::of)
    }
}

impl Default for Ledger {
    fn default() -> Ledger {
        Ledger::new()
    }
}

/// What the ledger has of one source.
#[derive(Clone, Copy, Debug, PartialEq, Eq)]
pub struct Row {
    /// the agent
    pub agent: IpAddr,
    /// the source
    pub source_id: SourceId,
    /// the sequence number of the last sample entered
    pub sequence_number: u32,
    /// the sample pool of the last sample entered
    pub sample_pool: u32,
    /// samples lost, modulo 2^64
    pub lost_total: u64,
    /// packets that could have been sampled, modulo 2^64
    pub pool_total: u64,
}

impl Row {
    fn of(numbers: &[u64]) -> Option<Row> {
        match *numbers {
            [0, ..] => None,
            [_, kind, a, b, c, d, source_id, sequence_number, sample_pool, lost_total, pool_total] => {
                Some(Row {
                    agent: address::of(kind & 0xffff_ffff, [a, b, c, d]),
                    source_id: SourceId(source_id as u32),
                    sequence_number: sequence_number as u32,
                    sample_pool: sample_pool as u32,
                    lost_total,
                    pool_total,
                })
            }
            _ => None,
        }
    }
}
