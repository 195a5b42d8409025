//! Captures for timing: endless datagrams that differ only in their sequence
//! numbers and uptimes.

use crate::attributes::{ETHERNET, ETHERNET_IPV4};
use crate::capture::record;
use crate::counters::CountersVersion;
use crate::encoder::encode;
use crate::packets::{ethernet, flow_of, header_data, Ipv4Form};
use crate::value::*;

/// The samples of a datagram with flow samples.
const FLOWS: u32 = 7;

/// The samples of a datagram with counter samples.
const COUNTERS: u32 = 8;

/// The octets of a TCP packet behind its IP header, so that the frame has 128
/// octets in all.
const BEHIND: usize = 94;

/// Endless records of 1,424-octet datagrams, each with 7 flow samples.
pub fn flow_records() -> impl Iterator<Item = Vec<u8>> {
    let samples = |number: u32| (0..FLOWS).map(move |turn| flow(of_turn(number, FLOWS, turn)));
    (1..).map(move |number| timed(number, samples(number).collect()))
}

/// Endless records of 1,304-octet datagrams, each with 8 Ethernet counter
/// samples.
pub fn counters_records() -> impl Iterator<Item = Vec<u8>> {
    let samples =
        |number: u32| (0..COUNTERS).map(move |turn| counters(of_turn(number, COUNTERS, turn)));
    (1..).map(move |number| timed(number, samples(number).collect()))
}

/// The sequence number of a sample: its datagram's number, how many samples
/// each datagram has, and its turn among them.
fn of_turn(number: u32, samples: u32, turn: u32) -> u32 {
    number.wrapping_mul(samples).wrapping_add(turn)
}

/// The record of the datagram with this sequence number.
fn timed(number: u32, samples: Vec<Sample>) -> Vec<u8> {
    let datagram = Datagram {
        agent_address: Address::IpV4([10, 0, 0, 7]),
        sequence_number: number,
        uptime: number.wrapping_mul(10),
        samples,
    };
    record(&encode(&datagram).octets)
}

/// A flow sample with the first 128 octets of an Ethernet frame and a switch.
fn flow(sequence_number: u32) -> Sample {
    let frame = ethernet(ETHERNET_IPV4, &Ipv4Form::tcp(BEHIND).octets());
    let switch = ExtendedSwitch {
        src_vlan: 100,
        src_priority: 0,
        dst_vlan: 200,
        dst_priority: 0,
    };
    Sample::Flow(FlowSample {
        sequence_number,
        sample_pool: sequence_number.wrapping_mul(512),
        extended_data: vec![ExtendedData::Switch(switch)],
        ..flow_of(header_data(ETHERNET, frame))
    })
}

/// An Ethernet counter sample.
fn counters(sequence_number: u32) -> Sample {
    let version = CountersVersion::Ethernet;
    Sample::Counters(CountersSample {
        sequence_number,
        source_id: 3,
        sampling_interval: 20,
        version,
        counters: (1..).take(version.fields().count()).collect(),
    })
}

#[cfg(test)]
mod tests {
    use super::*;
    use crate::listing::list;

    /// The lines for the first two records.
    fn lines(records: impl Iterator<Item = Vec<u8>>) -> Vec<String> {
        let capture: Vec<u8> = records.take(2).flatten().collect();
        let text = String::from_utf8(list(&capture)).expect("text");
        text.lines().map(String::from).collect()
    }

    #[test]
    fn flows_are_as_stated() {
        let lines = lines(flow_records());
        assert_eq!(lines[0], "1 agent 10.0.0.7 seq 1 length 1424");
        assert_eq!(lines[1], " flow at 24 length 200 source 0.3 seq 7");
        assert_eq!(lines[9], " flow at 24 length 200 source 0.3 seq 14");
        assert_eq!(lines[16], "records 2 refused 0 samples 14");
    }

    #[test]
    fn counters_are_as_stated() {
        let lines = lines(counters_records());
        assert_eq!(lines[0], "1 agent 10.0.0.7 seq 1 length 1304");
        assert_eq!(lines[1], " counters at 24 length 160 source 0.3 seq 8");
        assert_eq!(lines[18], "records 2 refused 0 samples 16");
    }
}
