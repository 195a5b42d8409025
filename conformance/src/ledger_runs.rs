//! Random runs of ledger operations from a seeded source of numbers. They are
//! in blocks: some rows are set, samples are entered and rows lent, then the
//! table is shown, so every change by a sample is seen before a row is set.

use crate::ledger::*;
use crate::ledger_records::*;
use crate::random::Random;

/// What a run is made of.
#[derive(Clone, Copy, Debug)]
pub struct Mix {
    /// The sources that come again and again.
    pub sources: usize,
    /// Whether all rows are set before the first block.
    pub preset: bool,
    /// The most rows set at the beginning of a block.
    pub sets: usize,
    /// Of so many set rows one is free.
    pub free: usize,
    /// Of 8 samples, those that come with a lent row.
    pub lends: usize,
    /// The blocks of the run.
    pub blocks: usize,
}

/// The most operations of a block behind its set rows, without the show.
pub const BLOCK_SAMPLES: usize = 14;

/// Few sources; more sources than rows; rows set to anything; no free rows.
pub const MIXES: [Mix; 12] = [
    mix(3, 0, 0, 40),
    mix(5, 0, 2, 50),
    mix(90, 0, 0, 40),
    mix(72, 0, 1, 45),
    mix(6, 4, 3, 70),
    mix(30, 10, 4, 50),
    half_free(4, 2),
    preset(3, 2),
    preset(8, 3),
    preset(40, 1),
    full(12, 2),
    full(50, 4),
];

const fn mix(sources: usize, sets: usize, lends: usize, blocks: usize) -> Mix {
    Mix {
        sources,
        preset: false,
        sets,
        free: 4,
        lends,
        blocks,
    }
}

/// Many rows are set, half of them to free ones.
const fn half_free(sources: usize, lends: usize) -> Mix {
    Mix {
        free: 2,
        ..mix(sources, 12, lends, 40)
    }
}

/// All rows are set at first, and later only by samples.
const fn preset(sources: usize, lends: usize) -> Mix {
    Mix {
        sources,
        preset: true,
        sets: 0,
        free: 20,
        lends,
        blocks: 16,
    }
}

/// All rows are set at first, and none is free.
const fn full(sources: usize, lends: usize) -> Mix {
    Mix {
        free: usize::MAX,
        blocks: 12,
        ..preset(sources, lends)
    }
}

/// Address types: 1, which compares 4 octets, and others.
const TYPES: [u32; 6] = [1, 2, 1, 0, 3, u32::MAX];

/// Steps of the sequence number.
const STEPS: [u32; 13] = [
    0,
    0,
    1,
    1,
    1,
    2,
    3,
    10,
    4000,
    (1 << 31) - 1,
    1 << 31,
    (1 << 31) + 1,
    u32::MAX,
];

/// Differences of the pool.
const POOL_STEPS: [u32; 6] = [0, 1, 512, 1 << 31, u32::MAX - 1, u32::MAX];

/// Octets of an address in which sources may differ: the first and the last
/// of those that count for type 1, and of those that do not.
const PLACES: [usize; 4] = [0, 3, 4, 15];

/// All runs of a seed.
pub fn random_records(seed: u64) -> Vec<Record> {
    let mut random = Random::new(seed);
    MIXES.iter().flat_map(|mix| run(&mut random, mix)).collect()
}

/// The records of a run, from an emptied table on.
pub fn run(random: &mut Random, mix: &Mix) -> Vec<Record> {
    let sources = sources(random, mix.sources);
    let mut run = Run {
        random,
        sources,
        table: Table::default(),
        records: Vec::new(),
    };
    run.push(empty_record());
    if mix.preset {
        run.set_all(mix.free);
    }
    for _ in 0..mix.blocks {
        run.block(mix);
    }
    run.records
}

/// So many different sources. Any three in turn share their id, and those
/// with the same place in their three share their address.
fn sources(random: &mut Random, count: usize) -> Vec<Source> {
    let address: [u8; 16] = random.array();
    let source = |number: usize| {
        let mut address = address;
        address[3] = (number % 3) as u8;
        Source {
            address_type: TYPES[number % TYPES.len()],
            address,
            id: (number / 3) as u32,
        }
    };
    (0..count).map(source).collect()
}

/// Which row is lent.
#[derive(Clone, Copy)]
enum Kind {
    Own,
    Free,
    Others,
}

/// A run as far as it is made, and the table it has led to.
struct Run<'a> {
    random: &'a mut Random,
    sources: Vec<Source>,
    table: Table,
    records: Vec<Record>,
}

impl Run<'_> {
    /// Adds a record and carries it out.
    fn push(&mut self, record: Record) {
        carry_out(&mut self.table, &record);
        self.records.push(record);
    }

    /// Set rows, samples, then a show.
    fn block(&mut self, mix: &Mix) {
        for _ in 0..self.random.below(mix.sets + 1) {
            let number = self.random.below(ROWS);
            self.set_row(number, mix.free);
        }
        let samples = 4 + self.random.below(BLOCK_SAMPLES - 3);
        for _ in 0..samples {
            let record = if self.random.below(8) < mix.lends {
                self.lend()
            } else {
                self.enter()
            };
            self.push(record);
        }
        self.push(show_record());
    }

    /// Sets all rows; one in so many is free.
    fn set_all(&mut self, free: usize) {
        for number in 0..ROWS {
            self.set_row(number, free);
        }
        self.push(show_record());
    }

    /// Sets a row to any contents; one time in so many it is free.
    fn set_row(&mut self, number: usize, free: usize) {
        let row = Row {
            used: self.random.below(free) > 0,
            source: self.row_source(),
            sequence: self.random.word(),
            pool: self.random.word(),
            lost_total: self.total(),
            pool_total: self.total(),
        };
        self.push(set_record(number as u32, &row));
    }

    /// The source of a set row: one of the run's or any other.
    fn row_source(&mut self) -> Source {
        if self.random.below(3) == 0 {
            return self.source();
        }
        Source {
            address_type: self.address_type(),
            address: self.random.array(),
            id: self.random.word(),
        }
    }

    /// An address type: one that the run's sources have, at times any.
    fn address_type(&mut self) -> u32 {
        let known = pick(self.random, &TYPES);
        let any = self.random.word();
        known.filter(|_| self.random.below(4) > 0).unwrap_or(any)
    }

    /// A total: near 2^64, near 2^32, small, or any.
    fn total(&mut self) -> u64 {
        let small = self.random.below(16) as u64;
        match self.random.below(5) {
            0 | 1 => u64::MAX - small,
            2 => u64::from(u32::MAX) - small,
            3 => small,
            _ => self.random.hyper(),
        }
    }

    /// One of the run's sources, at times changed in one to four ways.
    fn source(&mut self) -> Source {
        let mut source = pick(self.random, &self.sources).unwrap_or_default();
        let changes = match self.random.below(16) {
            0..=4 => 1,
            5 => 2 + self.random.below(3),
            _ => 0,
        };
        for _ in 0..changes {
            self.change_source(&mut source);
        }
        source
    }

    /// Changes a source a little. For type 1 the change may be in octets that
    /// do not count.
    fn change_source(&mut self, source: &mut Source) {
        match self.random.below(6) {
            0 => source.id ^= 1 << pick(self.random, &[0, 24, 31]).unwrap_or(0),
            1 => source.address_type ^= 1,
            2 | 3 => self.change_octet(source),
            _ if source.address_type == IPV4 => self.change_rest(source),
            _ => {}
        }
    }

    /// Changes one bit of an octet of the address.
    fn change_octet(&mut self, source: &mut Source) {
        let place = pick(self.random, &PLACES).unwrap_or(0);
        if let Some(octet) = source.address.get_mut(place) {
            *octet ^= 0x80;
        }
    }

    /// Changes all octets of the address but the first 4.
    fn change_rest(&mut self, source: &mut Source) {
        for octet in source.address.iter_mut().skip(4) {
            *octet = self.random.hyper() as u8;
        }
    }

    /// A sample for the table: where its source has rows, numbers that go
    /// on from its lowest, at times from another of them.
    fn enter(&mut self) -> Record {
        let source = self.source();
        let own = self.numbers_of(Kind::Own, &source);
        let lowest = own.first().copied().filter(|_| self.random.below(3) > 0);
        let sample = match lowest.or_else(|| pick(self.random, &own)) {
            Some(number) => self.following(number, source),
            None => self.first(source),
        };
        enter_record(&sample)
    }

    /// A sample with a lent row: its source's, a free one or another's.
    fn lend(&mut self) -> Record {
        let source = self.source();
        let kind = pick(
            self.random,
            &[Kind::Own, Kind::Own, Kind::Free, Kind::Others],
        );
        let numbers = self.numbers_of(kind.unwrap_or(Kind::Own), &source);
        let number = match pick(self.random, &numbers) {
            Some(number) => number,
            None => self.random.below(ROWS),
        };
        // A free row may hold what was its source's, and that comes again.
        let left_over = self.table.rows.get(number).filter(|row| !row.used);
        let source = match left_over {
            Some(row) if self.random.below(3) == 0 => row.source,
            _ => source,
        };
        let sample = self.following(number, source);
        lend_record(number as u32, &sample)
    }

    /// The numbers of the rows that are of this kind for a source.
    fn numbers_of(&self, kind: Kind, source: &Source) -> Vec<usize> {
        let rows = self.table.rows.iter().enumerate();
        let chosen = rows.filter(|(_, row)| match kind {
            Kind::Own => row.belongs_to(source),
            Kind::Free => !row.used,
            Kind::Others => row.used && !row.belongs_to(source),
        });
        chosen.map(|(number, _)| number).collect()
    }

    /// Any numbers.
    fn first(&mut self, source: Source) -> SampleNumbers {
        SampleNumbers {
            source,
            sequence: self.random.word(),
            pool: self.random.word(),
        }
    }

    /// Numbers that go on from those that a row keeps.
    fn following(&mut self, number: usize, source: Source) -> SampleNumbers {
        let row = self.table.rows.get(number).copied().unwrap_or_default();
        let step = pick(self.random, &STEPS).unwrap_or(1);
        let pool = match self.random.below(3) {
            0 => pick(self.random, &POOL_STEPS).unwrap_or(0),
            1 => self.random.below(100_000) as u32,
            _ => self.random.word(),
        };
        SampleNumbers {
            source,
            sequence: row.sequence.wrapping_add(step),
            pool: row.pool.wrapping_add(pool),
        }
    }
}

/// One of the entries, if there is one.
fn pick<T: Copy>(random: &mut Random, entries: &[T]) -> Option<T> {
    let chosen = random.below(entries.len());
    entries.get(chosen).copied()
}
