//! Samples read.
use crate::calls;
use crate::extended::ExtendedEntries;
use crate::octets::part;
use crate::packet::PacketData;
use crate::refusal::Refusal;
use crate::source_id::SourceId;

/// A sample of a datagram.
#[derive(Clone, Debug, PartialEq, Eq)]
pub enum Sample<'a> {
    /// a sampled packet
    Flow(FlowSample<'a>),
    /// counters of an interface or VLAN
    Counter(CounterSample<'a>),
}

impl<'a> Sample<'a> {
    /// The offset of its type word in the octets that were read.
    pub fn offset(&self) -> usize {
        match self {
            Sample::Flow(flow) => flow.offset,
            Sample::Counter(counter) => counter.offset,
        }
    }

    /// Its octets, with the type word.
    pub fn octets(&self) -> &'a [u8] {
        match self {
            Sample::Flow(flow) => flow.octets,
            Sample::Counter(counter) => counter.octets,
        }
    }

    /// Its length in octets, with the type word.
    pub fn length(&self) -> usize {
        self.octets().len()
    }
}

/// The words that a flow sample begins with.
#[derive(Clone, Copy, Debug, Default, PartialEq, Eq)]
pub struct FlowWords {
    /// the sequence number among the source's flow samples
    pub sequence_number: u32,
    /// the source
    pub source_id: SourceId,
    /// one of so many packets is sampled
    pub sampling_rate: u32,
    /// packets that could have been sampled
    pub sample_pool: u32,
    /// packets dropped for lack of resources
    pub drops: u32,
    /// the interface the packet came in by
    pub input: u32,
    /// the interface it went out by
    pub output: u32,
}

impl FlowWords {
    /// The eight words that the library takes: the count of extended entries is the last.
    pub(crate) fn with_count(&self, extended_count: u32) -> [u32; 8] {
        [
            self.sequence_number,
            self.source_id.0,
            self.sampling_rate,
            self.sample_pool,
            self.drops,
            self.input,
            self.output,
            extended_count,
        ]
    }
}

/// A flow sample.
#[derive(Clone, Debug, PartialEq, Eq)]
pub struct FlowSample<'a> {
    whole: &'a [u8],
    first_extended: usize,
    /// the offset of its type word in the octets that were read
    pub offset: usize,
    /// its octets with the type word, as [`run`](crate::run) and
    /// [`Writer::append`](crate::Writer::append) take them
    pub octets: &'a [u8],
    /// the words that it begins with
    pub words: FlowWords,
    /// the sampled packet
    pub packet: PacketData<'a>,
    /// how many extended entries it has
    pub extended_count: u32,
}

impl<'a> FlowSample<'a> {
    /// The extended entries, in their order. There are `extended_count` of them.
    pub fn extended(&self) -> ExtendedEntries<'a> {
        ExtendedEntries::new(self.whole, self.first_extended, self.extended_count)
    }

    fn of(octets: &'a [u8], out: &[u64; 45]) -> FlowSample<'a> {
        let [_, offset, length, sequence_number, source_id, rate, pool, drops, input, output, _, count, first, ..] =
            out;
        FlowSample {
            whole: octets,
            first_extended: *first as usize,
            offset: *offset as usize,
            octets: part(octets, *offset, *length),
            words: FlowWords {
                sequence_number: *sequence_number as u32,
                source_id: SourceId(*source_id as u32),
                sampling_rate: *rate as u32,
                sample_pool: *pool as u32,
                drops: *drops as u32,
                input: *input as u32,
                output: *output as u32,
            },
            packet: PacketData::of(octets, out),
            extended_count: *count as u32,
        }
    }
}

/// The words that a counter sample begins with.
#[derive(Clone, Copy, Debug, Default, PartialEq, Eq)]
pub struct CounterWords {
    /// the sequence number among the source's counter samples
    pub sequence_number: u32,
    /// the source
    pub source_id: SourceId,
    /// the sampling interval in seconds
    pub interval: u32,
    /// which counters follow: 1 generic, 2 Ethernet, 3 token ring, 4 FDDI, 5 VG, 6 WAN, 7 VLAN
    pub version: u32,
}

impl CounterWords {
    /// The four words that the library takes.
    pub(crate) fn words(&self) -> [u32; 4] {
        [
            self.sequence_number,
            self.source_id.0,
            self.interval,
            self.version,
        ]
    }
}

/// A counter sample.
#[derive(Clone, Debug, PartialEq, Eq)]
pub struct CounterSample<'a> {
    numbers: [u64; 37],
    count: usize,
    /// the offset of its type word in the octets that were read
    pub offset: usize,
    /// its octets with the type word, as [`Writer::append`](crate::Writer::append) takes them
    pub octets: &'a [u8],
    /// the words that it begins with
    pub words: CounterWords,
}

impl<'a> CounterSample<'a> {
    /// The counters in the RFC's order: 19 for versions 1, 4 and 6, 32 for 2, 37 for 3, 33 for 5, 6
    /// for 7.
    pub fn counters(&self) -> &[u64] {
        self.numbers.get(..self.count).unwrap_or(&self.numbers)
    }

    fn of(octets: &'a [u8], out: &[u64; 45]) -> CounterSample<'a> {
        let [_, offset, length, sequence_number, source_id, interval, version, count, numbers @ ..] =
            out;
        CounterSample {
            numbers: *numbers,
            count: *count as usize,
            offset: *offset as usize,
            octets: part(octets, *offset, *length),
            words: CounterWords {
                sequence_number: *sequence_number as u32,
                source_id: SourceId(*source_id as u32),
                interval: *interval as u32,
                version: *version as u32,
            },
        }
    }
}

/// Reads the sample whose type word is at an offset. An offset past the end is a cut item there.
///
/// ```
/// use troutgable::{read_sample, Reason, Sample};
///
/// // a VLAN counter sample behind two octets
/// let mut octets = vec![0xff, 0xff, 0, 0, 0, 2, 0, 0, 0, 5, 1, 0, 0, 100, 0, 0, 0, 20, 0, 0, 0, 7];
/// octets.extend([0, 0, 0, 100, 0, 0, 0, 0, 0, 0, 0, 9, 0, 0, 0, 8, 0, 0, 0, 7, 0, 0, 0, 6, 0, 0, 0, 5]);
/// let Sample::Counter(counter) = read_sample(&octets, 2)? else { panic!() };
/// assert_eq!((counter.words.sequence_number, counter.words.version), (5, 7));
/// assert_eq!(counter.counters(), [100, 9, 8, 7, 6, 5]);
///
/// let refusal = read_sample(&octets, 60).unwrap_err();
/// assert_eq!((refusal.reason, refusal.place), (Reason::CutItem, 60));
/// # Ok::<(), troutgable::Refusal>(())
/// ```
pub fn read_sample(octets: &[u8], at: usize) -> Result<Sample<'_>, Refusal> {
    let mut out = [0; 45];
    match (calls::sample(octets, at, &mut out), out[0]) {
        (0, 1) => Ok(Sample::Flow(FlowSample::of(octets, &out))),
        (0, _) => Ok(Sample::Counter(CounterSample::of(octets, &out))),
        (number, place) => Err(Refusal::of(number, place)),
    }
}
