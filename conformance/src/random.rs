//! A small seeded source of numbers (splitmix64). The same seed gives the
//! same numbers on every machine.

/// Words that often show mistakes at the ends of a range.
const EDGE_WORDS: [u32; 6] = [0, 1, 0x7fff_ffff, 0x8000_0000, 0xffff_fffe, 0xffff_ffff];

/// The source and how far it has come.
pub struct Random {
    state: u64,
}

impl Random {
    /// The source that begins with this seed.
    pub fn new(seed: u64) -> Random {
        Random { state: seed }
    }

    /// The next 64 bits.
    pub fn hyper(&mut self) -> u64 {
        self.state = self.state.wrapping_add(0x9e37_79b9_7f4a_7c15);
        let mut mixed = self.state;
        mixed = (mixed ^ (mixed >> 30)).wrapping_mul(0xbf58_476d_1ce4_e5b9);
        mixed = (mixed ^ (mixed >> 27)).wrapping_mul(0x94d0_49bb_1331_11eb);
        mixed ^ (mixed >> 31)
    }

    /// A number from 0 to `limit` - 1; 0 where the limit is 0.
    pub fn below(&mut self, limit: usize) -> usize {
        (self.hyper() % (limit.max(1) as u64)) as usize
    }

    /// Two to four numbers below `limit`, half of the time all the same.
    pub fn several(&mut self, limit: usize) -> Vec<usize> {
        let first = self.below(limit);
        let same = self.below(2) == 0;
        let further = 1 + self.below(3);
        let mut numbers = vec![first];
        for _ in 0..further {
            let number = if same { first } else { self.below(limit) };
            numbers.push(number);
        }
        numbers
    }

    /// A word: one time in four the end of a range, otherwise any.
    pub fn word(&mut self) -> u32 {
        if self.below(4) == 0 {
            let chosen = self.below(EDGE_WORDS.len());
            EDGE_WORDS.get(chosen).copied().unwrap_or(0)
        } else {
            self.hyper() as u32
        }
    }

    /// So many words.
    pub fn words(&mut self, count: usize) -> Vec<u32> {
        (0..count).map(|_| self.word()).collect()
    }

    /// So many octets.
    pub fn octets(&mut self, count: usize) -> Vec<u8> {
        (0..count).map(|_| self.hyper() as u8).collect()
    }

    /// A fixed number of octets.
    pub fn array<const N: usize>(&mut self) -> [u8; N] {
        std::array::from_fn(|_| self.hyper() as u8)
    }
}
