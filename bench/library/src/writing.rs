//! Writing a datagram again from its values: each sample is appended from them behind the datagram
//! so far, where its extended entries are octets that were written to a buffer of their own (and, for
//! the second program, its packet data). The values are read once, before the first turn.

use std::hint::black_box;

use conformance::reader;
use conformance::value::{Address, CountersSample, Datagram, ExtendedData, ExtendedSwitch};
use conformance::value::{FlowSample, PacketData, Sample, SampledHeader};
use conformance::writer::{self, GivenAddress, GivenCounters, GivenFlow};

use crate::{calls, repeated, word, Side, Work};

/// The longest datagram, and the length of its buffer.
const LIMIT: usize = 1500;

/// The kind of a switch entry for `calls::write`, as include/sflow4.h names it.
const WRITE_SWITCH: u32 = 11;

/// A refusal's number.
type Written = Result<usize, u32>;

/// The buffers that are written to, the same in all turns; nothing clears them.
struct Buffers {
    datagram: [u8; LIMIT],
    packet: [u8; 512],
    entries: [u8; 512],
}

pub fn write(work: Work) -> Result<u64, String> {
    let given = reader::read(&work.octets).map_err(|refusal| refusal.to_string())?;
    let mut buffers = Buffers {
        datagram: [0; LIMIT],
        packet: [0; 512],
        entries: [0; 512],
    };
    let mut values = given.datagram;
    let first = values.sequence_number;
    let task = match work.side {
        Side::Ours => ours,
        Side::Second => second,
    };
    let found = repeated(work.turns, |turn| {
        values.sequence_number = first.wrapping_add(turn);
        let length = task(black_box(&values), &mut buffers);
        length.map_or_else(u64::from, |length| {
            length as u64 + u64::from(buffers.datagram[15])
        })
    });
    values.sequence_number = first;
    let last = task(&values, &mut buffers).map_err(|refusal| format!("refused {refusal}"))?;
    if buffers.datagram[..last] != work.octets {
        return Err("the datagram written is not the one in FILE".into());
    }
    Ok(found)
}

/// The type and four words of an address.
fn words_of(address: &Address) -> (u32, [u32; 4]) {
    match address {
        Address::IpV4(octets) => (1, [word(octets, 0), 0, 0, 0]),
        Address::IpV6(octets) => (2, [0, 4, 8, 12].map(|at| word(octets, at))),
    }
}

/// What a call wrote, by its answer and its array.
fn written(answer: u32, out: [u64; 1]) -> Written {
    match answer {
        0 => Ok(out[0] as usize),
        refusal => Err(refusal),
    }
}

fn ours(datagram: &Datagram, to: &mut Buffers) -> Written {
    let mut out = [0];
    let agent = words_of(&datagram.agent_address);
    let (sequence, uptime) = (datagram.sequence_number, datagram.uptime);
    let answer = calls::start(&mut to.datagram, LIMIT, agent, sequence, uptime, &mut out);
    let mut length = written(answer, out)?;
    for sample in &datagram.samples {
        length = match sample {
            Sample::Flow(flow) => ours_flow(flow, length, to)?,
            Sample::Counters(counters) => ours_counters(counters, length, to)?,
        };
    }
    Ok(length)
}

fn ours_flow(flow: &FlowSample, length: usize, to: &mut Buffers) -> Written {
    let mut out = [0];
    let mut entries = 0;
    for entry in &flow.extended_data {
        let own = switch_of(entry)?;
        let words = [
            own.src_vlan,
            own.src_priority,
            own.dst_vlan,
            own.dst_priority,
        ];
        let room = &mut to.entries[entries..];
        entries += written(
            calls::write(WRITE_SWITCH, &words, &[], &[], room, &mut out),
            out,
        )?;
    }
    let words = [
        flow.sequence_number,
        flow.source_id,
        flow.sampling_rate,
        flow.sample_pool,
        flow.drops,
        flow.input,
        flow.output,
        flow.extended_data.len() as u32,
    ];
    let own = header_of(flow)?;
    let header = (own.protocol, own.frame_length, own.header.as_slice());
    let (datagram, entries) = (&mut to.datagram, &to.entries[..entries]);
    written(
        calls::append_header(datagram, LIMIT, length, &words, header, entries, &mut out),
        out,
    )
}

fn ours_counters(own: &CountersSample, length: usize, to: &mut Buffers) -> Written {
    let mut out = [0];
    let version = own.version.number();
    let words = [
        own.sequence_number,
        own.source_id,
        own.sampling_interval,
        version,
    ];
    let (datagram, numbers) = (&mut to.datagram, &own.counters);
    written(
        calls::append_counters(datagram, LIMIT, length, words, numbers, &mut out),
        out,
    )
}

fn second(datagram: &Datagram, to: &mut Buffers) -> Written {
    let agent = GivenAddress::from(datagram.agent_address);
    let (sequence, uptime) = (datagram.sequence_number, datagram.uptime);
    let mut length = writer::start(&mut to.datagram, LIMIT, &agent, sequence, uptime)?;
    for sample in &datagram.samples {
        length = match sample {
            Sample::Flow(flow) => second_flow(flow, length, to)?,
            Sample::Counters(counters) => second_counters(counters, length, to)?,
        };
    }
    Ok(length)
}

fn second_flow(flow: &FlowSample, length: usize, to: &mut Buffers) -> Written {
    let own = header_of(flow)?;
    let packet = writer::write_header(&mut to.packet, own.protocol, own.frame_length, &own.header)?;
    let mut entries = 0;
    for entry in &flow.extended_data {
        entries += writer::write_switch(&mut to.entries[entries..], switch_of(entry)?)?;
    }
    let words = [
        flow.sequence_number,
        flow.source_id,
        flow.sampling_rate,
        flow.sample_pool,
        flow.drops,
        flow.input,
        flow.output,
    ];
    let given = GivenFlow {
        words,
        packet_octets: &to.packet[..packet],
        entries: flow.extended_data.len() as u32,
        entry_octets: &to.entries[..entries],
    };
    writer::append_flow(&mut to.datagram, LIMIT, length, &given)
}

fn second_counters(own: &CountersSample, length: usize, to: &mut Buffers) -> Written {
    let given = GivenCounters {
        sequence: own.sequence_number,
        source: own.source_id,
        interval: own.sampling_interval,
        version: own.version.number(),
        numbers: &own.counters,
    };
    writer::append_counters(&mut to.datagram, LIMIT, length, &given)
}

/// The header of a flow sample; the inputs have no other packet data.
fn header_of(flow: &FlowSample) -> Result<&SampledHeader, u32> {
    match &flow.packet_data {
        PacketData::Header(header) => Ok(header),
        PacketData::Ipv4(_) | PacketData::Ipv6(_) => Err(writer::NOT_IN_GRAMMAR),
    }
}

/// A switch entry; the inputs have no other extended data.
fn switch_of(entry: &ExtendedData) -> Result<&ExtendedSwitch, u32> {
    match entry {
        ExtendedData::Switch(switch) => Ok(switch),
        _ => Err(writer::NOT_IN_GRAMMAR),
    }
}
