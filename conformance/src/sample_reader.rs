//! The reader's part for samples: flow samples and counter samples.

use crate::counters::{CountersVersion, Width};
use crate::cursor::Cursor;
use crate::grammar;
use crate::reader::read_address;
use crate::refusal::{Fault, Refusal};
use crate::value::*;

/// A reader of one form of a union, picked by its type word, or of the whole
/// union.
pub type Form<T> = fn(&mut Cursor) -> Result<T, Refusal>;

/// Reads one sample from its type word on.
pub fn read_sample(cursor: &mut Cursor) -> Result<Sample, Refusal> {
    let form: Form<Sample> = cursor.chosen(Fault::SampleType, |number| match number {
        grammar::FLOWSAMPLE => Some(read_flow_sample as Form<Sample>),
        grammar::COUNTERSSAMPLE => Some(read_counters_sample),
        _ => None,
    })?;
    form(cursor)
}

fn read_flow_sample(cursor: &mut Cursor) -> Result<Sample, Refusal> {
    Ok(Sample::Flow(FlowSample {
        sequence_number: cursor.word()?,
        source_id: cursor.word()?,
        sampling_rate: cursor.word()?,
        sample_pool: cursor.word()?,
        drops: cursor.word()?,
        input: cursor.word()?,
        output: cursor.word()?,
        packet_data: read_packet_data(cursor)?,
        extended_data: cursor.list(read_extended_data)?,
    }))
}

/// Reads packet data from their type word on.
pub fn read_packet_data(cursor: &mut Cursor) -> Result<PacketData, Refusal> {
    let form: Form<PacketData> = cursor.chosen(Fault::PacketDataType, |number| match number {
        grammar::HEADER => Some(read_header as Form<PacketData>),
        grammar::IPV4 => Some(read_ipv4),
        grammar::IPV6 => Some(read_ipv6),
        _ => None,
    })?;
    form(cursor)
}

fn read_header(cursor: &mut Cursor) -> Result<PacketData, Refusal> {
    Ok(PacketData::Header(SampledHeader {
        protocol: cursor.chosen(Fault::HeaderProtocol, |number| {
            (grammar::FIRST_HEADER_PROTOCOL..=grammar::LAST_HEADER_PROTOCOL)
                .contains(&number)
                .then_some(number)
        })?,
        frame_length: cursor.word()?,
        header: cursor.limited_string(grammar::MAX_HEADER_SIZE, Fault::HeaderLength)?,
    }))
}

fn read_ipv4(cursor: &mut Cursor) -> Result<PacketData, Refusal> {
    Ok(PacketData::Ipv4(SampledIpv4 {
        length: cursor.word()?,
        protocol: cursor.word()?,
        src_ip: cursor.array()?,
        dst_ip: cursor.array()?,
        src_port: cursor.word()?,
        dst_port: cursor.word()?,
        tcp_flags: cursor.word()?,
        tos: cursor.word()?,
    }))
}

fn read_ipv6(cursor: &mut Cursor) -> Result<PacketData, Refusal> {
    Ok(PacketData::Ipv6(SampledIpv6 {
        length: cursor.word()?,
        protocol: cursor.word()?,
        src_ip: cursor.array()?,
        dst_ip: cursor.array()?,
        src_port: cursor.word()?,
        dst_port: cursor.word()?,
        tcp_flags: cursor.word()?,
        priority: cursor.word()?,
    }))
}

/// Reads one entry of extended data from its type word on.
pub fn read_extended_data(cursor: &mut Cursor) -> Result<ExtendedData, Refusal> {
    let form: Form<ExtendedData> = cursor.chosen(Fault::ExtendedType, |number| match number {
        grammar::SWITCH => Some(read_switch as Form<ExtendedData>),
        grammar::ROUTER => Some(read_router),
        grammar::GATEWAY => Some(read_gateway),
        grammar::USER => Some(read_user),
        grammar::URL => Some(read_url),
        _ => None,
    })?;
    form(cursor)
}

fn read_switch(cursor: &mut Cursor) -> Result<ExtendedData, Refusal> {
    Ok(ExtendedData::Switch(ExtendedSwitch {
        src_vlan: cursor.word()?,
        src_priority: cursor.word()?,
        dst_vlan: cursor.word()?,
        dst_priority: cursor.word()?,
    }))
}

fn read_router(cursor: &mut Cursor) -> Result<ExtendedData, Refusal> {
    Ok(ExtendedData::Router(ExtendedRouter {
        nexthop: read_address(cursor)?,
        src_mask: cursor.word()?,
        dst_mask: cursor.word()?,
    }))
}

fn read_gateway(cursor: &mut Cursor) -> Result<ExtendedData, Refusal> {
    Ok(ExtendedData::Gateway(ExtendedGateway {
        r#as: cursor.word()?,
        src_as: cursor.word()?,
        src_peer_as: cursor.word()?,
        dst_as_path: cursor.list(read_path_segment)?,
        communities: cursor.list(Cursor::word)?,
        localpref: cursor.word()?,
    }))
}

/// Reads one path segment from its type word on.
pub fn read_path_segment(cursor: &mut Cursor) -> Result<AsPath, Refusal> {
    let build: fn(Vec<u32>) -> AsPath =
        cursor.chosen(Fault::SegmentType, |number| match number {
            grammar::AS_SET => Some(AsPath::AsSet as fn(Vec<u32>) -> AsPath),
            grammar::AS_SEQUENCE => Some(AsPath::AsSequence),
            _ => None,
        })?;
    Ok(build(cursor.list(Cursor::word)?))
}

fn read_user(cursor: &mut Cursor) -> Result<ExtendedData, Refusal> {
    Ok(ExtendedData::User(ExtendedUser {
        src_user: cursor.string()?,
        dst_user: cursor.string()?,
    }))
}

fn read_url(cursor: &mut Cursor) -> Result<ExtendedData, Refusal> {
    Ok(ExtendedData::Url(ExtendedUrl {
        direction: cursor.chosen(Fault::UrlDirection, |number| match number {
            grammar::SRC => Some(UrlDirection::Src),
            grammar::DST => Some(UrlDirection::Dst),
            _ => None,
        })?,
        url: cursor.string()?,
    }))
}

fn read_counters_sample(cursor: &mut Cursor) -> Result<Sample, Refusal> {
    let sequence_number = cursor.word()?;
    let source_id = cursor.word()?;
    let sampling_interval = cursor.word()?;
    let version = cursor.chosen(Fault::CountersVersion, CountersVersion::from_number)?;
    Ok(Sample::Counters(CountersSample {
        sequence_number,
        source_id,
        sampling_interval,
        version,
        counters: read_counters(cursor, version)?,
    }))
}

/// Reads the fields of a counter body, each an item of its own.
fn read_counters(cursor: &mut Cursor, version: CountersVersion) -> Result<Vec<u64>, Refusal> {
    version
        .fields()
        .map(|field| match field.width {
            Width::Word => cursor.word().map(u64::from),
            Width::Hyper => cursor.hyper(),
        })
        .collect()
}
