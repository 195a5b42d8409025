//! The reader's own cases of the build scope, 1 to 10 in its order: for each
//! its words, its octets and the answer they state. The octets are written by
//! hand, without the encoder. What a case leaves free is chosen here.

use crate::counters::CountersVersion;
use crate::value::*;

/// One case; 10 comes twice, with a header of 257 octets and with 256.
#[derive(Clone, Debug, PartialEq, Eq)]
pub struct Case {
    /// The number that the scope gives it.
    pub number: u32,
    /// What the scope says of it.
    pub words: &'static str,
    /// The octets that are read.
    pub octets: Vec<u8>,
    /// The answer that they get.
    pub stated: Stated,
}

/// The answer that a case states.
#[derive(Clone, Debug, PartialEq, Eq)]
pub enum Stated {
    /// A refusal with this number at this place.
    Refused(u32, usize),
    /// These values.
    Accepted(Datagram),
}

/// All cases of the reader in their order.
pub fn cases() -> Vec<Case> {
    let mut all = beginning_cases();
    all.extend(counters_cases());
    all.extend(header_cases());
    all
}

/// Words as octets, big-endian.
pub fn octets_of(words: &[u32]) -> Vec<u8> {
    words.iter().flat_map(|word| word.to_be_bytes()).collect()
}

/// Case 3's datagram, but with this count of samples.
pub fn beginning(count: u32) -> Vec<u8> {
    octets_of(&[4, 1, 0x0a00_0007, 1, 1000, count])
}

/// Case 3's beginning and one flow sample: a header with this length word and
/// these octets, their padding included, then no extended data.
pub fn header_datagram(length: u32, header: &[u8]) -> Vec<u8> {
    let sample = octets_of(&[1, 9, 3, 512, 4096, 0, 1, 2, 1, 1, 64, length]);
    [beginning(1), sample, header.to_vec(), octets_of(&[0])].concat()
}

/// A case that states a refusal with this number at this place.
fn refused(case: u32, words: &'static str, octets: Vec<u8>, number: u32, place: usize) -> Case {
    Case {
        number: case,
        words,
        octets,
        stated: Stated::Refused(number, place),
    }
}

/// A case that states these samples behind case 3's beginning.
fn accepted(case: u32, words: &'static str, octets: Vec<u8>, samples: Vec<Sample>) -> Case {
    let datagram = Datagram {
        agent_address: Address::IpV4([10, 0, 0, 7]),
        sequence_number: 1,
        uptime: 1000,
        samples,
    };
    Case {
        number: case,
        words,
        octets,
        stated: Stated::Accepted(datagram),
    }
}

/// Cases 1 to 6, which end before a first sample.
fn beginning_cases() -> Vec<Case> {
    let case_3 = "Agent 10.0.0.7, sequence 1, uptime 1000, no samples, 24 octets: accepted";
    let whole = beginning(0);
    let first_23 = whole.iter().copied().take(23).collect();
    let one_more = [&whole[..], &[0]].concat();
    vec![
        refused(1, "Empty: 1 at 0", Vec::new(), 1, 0),
        refused(2, "Word 5: 2 at 0", octets_of(&[5]), 2, 0),
        accepted(3, case_3, whole, Vec::new()),
        refused(4, "Its first 23: 1 at 20", first_23, 1, 20),
        refused(5, "One octet 00 more: 13 at 24", one_more, 13, 24),
        refused(6, "Count 1, nothing after: 1 at 24", beginning(1), 1, 24),
    ]
}

/// Case 7's octets, but with this counters version.
fn vlan_octets(version: u32) -> Vec<u8> {
    let sample = [2, 5, 0x0100_0064, 20, version, 100, 0, 0, 0, 0, 0, 0];
    [beginning(1), octets_of(&sample)].concat()
}

/// Cases 7 and 8, with VLAN counters.
fn counters_cases() -> Vec<Case> {
    let case_7 = "Agent, sequence and uptime as 3, one VLAN counter sample: sequence 5, \
                  source 01000064, interval 20, vlan 100, the rest 0; 72 octets";
    let sample = Sample::Counters(CountersSample {
        sequence_number: 5,
        source_id: 0x0100_0064,
        sampling_interval: 20,
        version: CountersVersion::Vlan,
        counters: vec![100, 0, 0, 0, 0, 0],
    });
    let case_8 = "Its counters version 8: 11 at 40";
    vec![
        accepted(7, case_7, vlan_octets(7), vec![sample]),
        refused(8, case_8, vlan_octets(8), 11, 40),
    ]
}

/// The flow sample of `header_datagram` with this header.
fn header_sample(header: Vec<u8>) -> Sample {
    Sample::Flow(FlowSample {
        sequence_number: 9,
        source_id: 3,
        sampling_rate: 512,
        sample_pool: 4096,
        drops: 0,
        input: 1,
        output: 2,
        packet_data: PacketData::Header(SampledHeader {
            protocol: 1,
            frame_length: 64,
            header,
        }),
        extended_data: Vec::new(),
    })
}

/// Cases 9 and 10, with header data. The longer header of 10 is there whole,
/// with its padding, so that its length alone is at fault.
fn header_cases() -> Vec<Case> {
    let case_9 = "Agent as 3, one flow sample with a 5-octet header, octet 77 zero, \
                  78 not: 12 at 78";
    let padding = header_datagram(5, &[1, 2, 3, 4, 5, 0, 1, 0]);
    let too_long = header_datagram(257, &[[7; 257].as_slice(), &[0; 3]].concat());
    let longest = header_datagram(256, &[7; 256]);
    let sample = header_sample(vec![7; 256]);
    vec![
        refused(9, case_9, padding, 12, 78),
        refused(10, "Header length 257: 7 at 68", too_long, 7, 68),
        accepted(10, "256 is fine", longest, vec![sample]),
    ]
}
