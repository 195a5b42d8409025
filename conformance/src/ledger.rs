//! The ledger of flow samples: a table of 64 rows, each for one source, with
//! the samples lost and the packets that could have been sampled.

/// The rows of a table.
pub const ROWS: usize = 64;

/// The address type whose address has only 4 octets.
pub const IPV4: u32 = 1;

/// The octets of an address of type `IPV4`.
const IPV4_OCTETS: usize = 4;

/// The first step that is refused as one backwards.
const HALF: u32 = 1 << 31;

/// Why a sample is not entered; the discriminant is the refusal's number.
#[derive(Clone, Copy, Debug, PartialEq, Eq, PartialOrd, Ord)]
pub enum LedgerFault {
    /// All rows belong to other sources.
    Full = 40,
    /// The sequence number is the one kept.
    Repeated = 41,
    /// The sequence number is 2^31 or more steps on, so one of the past.
    Backwards = 42,
    /// The lent row belongs to another source.
    OtherSource = 43,
}

impl LedgerFault {
    /// The refusal number.
    pub fn number(self) -> u32 {
        self as u32
    }
}

/// An agent address and a source id, as they came. Equality is that of all
/// octets; whether two are one source says `same_source`.
#[derive(Clone, Copy, Debug, Default, PartialEq, Eq)]
pub struct Source {
    /// 1 for IPv4; any other compares all octets.
    pub address_type: u32,
    /// For type 1 only the first 4 count.
    pub address: [u8; 16],
    /// The source id.
    pub id: u32,
}

impl Source {
    /// The octets of the address that count.
    fn octets(&self) -> &[u8] {
        if self.address_type == IPV4 {
            self.address.split_at(IPV4_OCTETS).0
        } else {
            &self.address
        }
    }

    /// Whether both are one source.
    pub fn same_source(&self, other: &Source) -> bool {
        self.id == other.id
            && self.address_type == other.address_type
            && self.octets() == other.octets()
    }
}

/// What the ledger takes from a flow sample and its datagram.
#[derive(Clone, Copy, Debug, Default, PartialEq, Eq)]
pub struct SampleNumbers {
    /// Where the sample comes from.
    pub source: Source,
    /// The sample's sequence number.
    pub sequence: u32,
    /// The sample's pool.
    pub pool: u32,
}

/// A row. What a free row holds beside `used` has no meaning.
#[derive(Clone, Copy, Debug, Default, PartialEq, Eq)]
pub struct Row {
    /// Whether the row belongs to a source.
    pub used: bool,
    /// The source it belongs to.
    pub source: Source,
    /// The kept sequence number.
    pub sequence: u32,
    /// The kept sample pool.
    pub pool: u32,
    /// The samples lost so far, modulo 2^64.
    pub lost_total: u64,
    /// The growth of the pool so far, modulo 2^64.
    pub pool_total: u64,
}

impl Row {
    /// The row that a source's first sample opens.
    pub fn opened(sample: &SampleNumbers) -> Row {
        Row {
            used: true,
            source: sample.source,
            sequence: sample.sequence,
            pool: sample.pool,
            lost_total: 0,
            pool_total: 0,
        }
    }

    /// Whether the row is in use for this source.
    pub fn belongs_to(&self, source: &Source) -> bool {
        self.used && self.source.same_source(source)
    }
}

/// The table; all rows are free at first.
#[derive(Clone, Debug, PartialEq, Eq)]
pub struct Table {
    /// The rows by their number.
    pub rows: [Row; ROWS],
}

impl Default for Table {
    fn default() -> Table {
        Table {
            rows: [Row::default(); ROWS],
        }
    }
}

impl Table {
    /// The lowest row of a source, and where it has none the lowest free one.
    fn row_for(&mut self, source: &Source) -> Option<&mut Row> {
        let own = self.rows.iter().position(|row| row.belongs_to(source));
        let free = self.rows.iter().position(|row| !row.used);
        self.rows.get_mut(own.or(free)?)
    }
}

/// Enters a sample in the row of its source; a new source opens a row.
pub fn enter(table: &mut Table, sample: &SampleNumbers) -> Result<(), LedgerFault> {
    match table.row_for(&sample.source) {
        Some(row) => lend(row, sample),
        None => Err(LedgerFault::Full),
    }
}

/// Enters a sample in this row, without regard to any other.
pub fn lend(row: &mut Row, sample: &SampleNumbers) -> Result<(), LedgerFault> {
    if !row.used {
        *row = Row::opened(sample);
        return Ok(());
    }
    if !row.belongs_to(&sample.source) {
        return Err(LedgerFault::OtherSource);
    }
    update(row, sample)
}

/// Brings a source's own row up to date. The source stays as it was when the
/// row was opened, octets that do not count included.
fn update(row: &mut Row, sample: &SampleNumbers) -> Result<(), LedgerFault> {
    let step = sample.sequence.wrapping_sub(row.sequence);
    if step == 0 {
        return Err(LedgerFault::Repeated);
    }
    if step >= HALF {
        return Err(LedgerFault::Backwards);
    }
    let packets = sample.pool.wrapping_sub(row.pool);
    row.lost_total = row.lost_total.wrapping_add(u64::from(step - 1));
    row.pool_total = row.pool_total.wrapping_add(u64::from(packets));
    row.sequence = sample.sequence;
    row.pool = sample.pool;
    Ok(())
}
