//! Datagrams written into a lent buffer.
use crate::address;
use crate::calls;
use crate::packet::{Ipv4Data, Ipv6Data, SampledHeader};
use crate::refusal::WriteRefusal;
use crate::sample::{CounterWords, FlowWords};
use std::net::IpAddr;

/// The length that a writer put into its array, or the refusal.
pub(crate) fn length(number: u32, out: [u64; 1]) -> Result<usize, WriteRefusal> {
    match number {
        0 => Ok(out[0] as usize),
        refused => Err(WriteRefusal::of(refused)),
    }
}

/// A datagram that grows in a lent buffer, up to a limit. Samples are appended from their values, or
/// as octets with [`append`](Writer::append).
///
/// ```
/// use troutgable::{read, CounterWords, SourceId, WriteRefusal, Writer};
///
/// let mut buffer = [0; 1400];
/// let mut writer = Writer::start(&mut buffer, 100, "10.0.0.7".parse().unwrap(), 1, 1000)?;
/// let words = CounterWords { sequence_number: 5, source_id: SourceId(0x0100_0064), interval: 20, version: 7 };
/// assert_eq!(writer.append_counters(&words, &[100, 0, 0, 0, 0, 0])?, 72);
/// assert_eq!(writer.append_counters(&words, &[100, 0, 0, 0, 0, 0]), Err(WriteRefusal::NoRoom));
/// assert_eq!(read(writer.octets()).unwrap().sample_count, 1);
/// # Ok::<(), WriteRefusal>(())
/// ```
#[derive(Debug)]
pub struct Writer<'b> {
    buffer: &'b mut [u8],
    limit: usize,
    length: usize,
}

impl<'b> Writer<'b> {
    /// Writes a datagram without samples to the buffer's front: 24 octets for an IPv4 agent, 36 for
    /// IPv6; octets behind it stay. Refuses a limit outside 36 to 65,507 or above the buffer's
    /// length (21).
    pub fn start(
        buffer: &'b mut [u8],
        limit: usize,
        agent: IpAddr,
        sequence_number: u32,
        uptime: u32,
    ) -> Result<Writer<'b>, WriteRefusal> {
        let mut out = [0];
        let number = calls::start(
            buffer,
            limit,
            address::to_words(agent),
            sequence_number,
            uptime,
            &mut out,
        );
        let length = length(number, out)?;
        Ok(Writer {
            buffer,
            limit,
            length,
        })
    }

    /// Goes on with the datagram that the buffer's first `length` octets are. Nothing is looked at
    /// until something is appended.
    pub fn resume(buffer: &'b mut [u8], limit: usize, length: usize) -> Writer<'b> {
        Writer {
            buffer,
            limit,
            length,
        }
    }

    /// Puts one sample, given as octets, at the end, adds 1 to the count of samples and answers the
    /// datagram's new length. Refuses, tested in this order: a wrong limit (21), a datagram that
    /// does not pass the reader or is longer than the limit (23), octets that are not exactly one
    /// sample (22), a new end past the limit (20). A refusal changes nothing.
    pub fn append(&mut self, sample: &[u8]) -> Result<usize, WriteRefusal> {
        self.grow(|buffer, limit, so_far, out| calls::append(buffer, limit, so_far, sample, out))
    }

    /// Puts a flow sample with a sampled header at the end, adds 1 to the count of samples and
    /// answers the datagram's new length; octets behind it stay. The extended entries come as
    /// octets that the functions of this crate wrote, one behind the other. Refuses, tested in this
    /// order: a wrong limit (21), a datagram that does not pass the reader or is longer than the
    /// limit (23), a protocol outside 1 to 13, more than 256 octets or octets that are not exactly
    /// so many entries (22), a new end past the limit (20). A refusal changes nothing.
    ///
    /// ```
    /// use troutgable::{read, write_switch, FlowWords, Sample, SampledHeader, Switch, Writer};
    ///
    /// let mut entries = [0; 20];
    /// let switch = Switch { source_vlan: 10, source_priority: 0, destination_vlan: 20, destination_priority: 0 };
    /// let n = write_switch(&mut entries, &switch)?;
    ///
    /// let mut buffer = [0; 1400];
    /// let mut writer = Writer::start(&mut buffer, 1400, "10.0.0.7".parse().unwrap(), 1, 1000)?;
    /// let words = FlowWords { sequence_number: 7, sampling_rate: 400, ..FlowWords::default() };
    /// let header = SampledHeader { protocol: 11, frame_length: 64, octets: b"\x45\0\0" };
    /// writer.append_header(&words, &header, 1, &entries[..n])?;
    /// let head = read(writer.octets()).unwrap();
    /// let Some(Sample::Flow(flow)) = head.samples().next() else { panic!() };
    /// assert_eq!((flow.words, flow.extended_count), (words, 1));
    /// # Ok::<(), troutgable::WriteRefusal>(())
    /// ```
    pub fn append_header(
        &mut self,
        words: &FlowWords,
        header: &SampledHeader<'_>,
        extended_count: u32,
        extended: &[u8],
    ) -> Result<usize, WriteRefusal> {
        let words = words.with_count(extended_count);
        let header = (header.protocol, header.frame_length, header.octets);
        self.grow(|buffer, limit, so_far, out| {
            calls::append_header(buffer, limit, so_far, &words, header, extended, out)
        })
    }

    /// The same with IPv4 data. Refuses, tested in this order: a wrong limit (21), a datagram that
    /// does not pass the reader or is longer than the limit (23), octets that are not exactly so
    /// many entries (22), a new end past the limit (20). A refusal changes nothing.
    pub fn append_ipv4(
        &mut self,
        words: &FlowWords,
        data: &Ipv4Data,
        extended_count: u32,
        extended: &[u8],
    ) -> Result<usize, WriteRefusal> {
        let (words, packet) = (words.with_count(extended_count), data.words());
        self.grow(|buffer, limit, so_far, out| {
            calls::append_ipv4(buffer, limit, so_far, &words, &packet, extended, out)
        })
    }

    /// The same with IPv6 data. Refuses, tested in this order: a wrong limit (21), a datagram that
    /// does not pass the reader or is longer than the limit (23), octets that are not exactly so
    /// many entries (22), a new end past the limit (20). A refusal changes nothing.
    pub fn append_ipv6(
        &mut self,
        words: &FlowWords,
        data: &Ipv6Data,
        extended_count: u32,
        extended: &[u8],
    ) -> Result<usize, WriteRefusal> {
        let (words, packet) = (words.with_count(extended_count), data.words());
        self.grow(|buffer, limit, so_far, out| {
            calls::append_ipv6(buffer, limit, so_far, &words, &packet, extended, out)
        })
    }

    /// Puts a counter sample at the end, adds 1 to the count of samples and answers the datagram's
    /// new length; octets behind it stay. The counters are those of the version in the RFC's order.
    /// Refuses, tested in this order: a wrong limit (21), a datagram that does not pass the reader
    /// or is longer than the limit (23), a version outside 1 to 7, another number of counters than
    /// the version has or a counter that is too large for its field (22), a new end past the limit
    /// (20). A refusal changes nothing.
    pub fn append_counters(
        &mut self,
        words: &CounterWords,
        counters: &[u64],
    ) -> Result<usize, WriteRefusal> {
        let words = words.words();
        self.grow(|buffer, limit, so_far, out| {
            calls::append_counters(buffer, limit, so_far, words, counters, out)
        })
    }

    /// Takes the length that an append answers for the buffer, the limit and the length so far; a
    /// refusal leaves the length.
    fn grow(
        &mut self,
        append: impl FnOnce(&mut [u8], usize, usize, &mut [u64]) -> u32,
    ) -> Result<usize, WriteRefusal> {
        let mut out = [0];
        let number = append(self.buffer, self.limit, self.length, &mut out);
        self.length = length(number, out)?;
        Ok(self.length)
    }

    /// The datagram so far; the whole buffer where it was resumed with a length past its end.
    pub fn octets(&self) -> &[u8] {
        self.buffer.get(..self.length).unwrap_or(self.buffer)
    }
}
