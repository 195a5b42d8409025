//! What was read from a capture with every form is written again, form by form, to the same octets.
use crate::forms;
use troutgable::*;

/// The octets that a writer writes.
fn written(write: impl FnOnce(&mut [u8]) -> Result<usize, WriteRefusal>) -> Vec<u8> {
    let mut buffer = vec![0; 4000];
    let n = write(&mut buffer).unwrap();
    buffer[..n].to_vec()
}

fn packet(data: &PacketData<'_>) -> Vec<u8> {
    match data {
        PacketData::Header(header) => written(|buffer| write_header(buffer, header)),
        PacketData::Ipv4(data) => written(|buffer| write_ipv4(buffer, data)),
        PacketData::Ipv6(data) => written(|buffer| write_ipv6(buffer, data)),
    }
}

fn gateway(entry: &Gateway<'_>) -> Vec<u8> {
    let segment = |segment: Segment<'_>| {
        let numbers: Vec<u32> = segment.numbers.collect();
        written(|buffer| write_segment(buffer, segment.kind, &numbers))
    };
    let segments: Vec<u8> = entry.segments().flat_map(segment).collect();
    let communities: Vec<u32> = entry.communities.clone().collect();
    let form = GatewayForm {
        router_as: entry.router_as,
        source_as: entry.source_as,
        source_peer_as: entry.source_peer_as,
        segment_count: entry.segment_count,
        segments: &segments,
        communities: &communities,
        local_preference: entry.local_preference,
    };
    written(|buffer| write_gateway(buffer, &form))
}

fn extended(entry: Extended<'_>) -> Vec<u8> {
    match entry {
        Extended::Switch(entry) => written(|buffer| write_switch(buffer, &entry)),
        Extended::Router(entry) => written(|buffer| write_router(buffer, &entry)),
        Extended::Gateway(entry) => gateway(&entry),
        Extended::User(entry) => {
            written(|buffer| write_user(buffer, entry.source, entry.destination))
        }
        Extended::Url(entry) => written(|buffer| write_url(buffer, entry.direction, entry.url)),
    }
}

/// The sample written as octets of its own.
fn sample(sample: &Sample<'_>) -> Vec<u8> {
    match sample {
        Sample::Flow(flow) => {
            let entries: Vec<u8> = flow.extended().flat_map(extended).collect();
            let packet = packet(&flow.packet);
            written(|buffer| {
                write_flow(buffer, &flow.words, &packet, flow.extended_count, &entries)
            })
        }
        Sample::Counter(counter) => {
            written(|buffer| write_counters(buffer, &counter.words, counter.counters()))
        }
    }
}

/// The sample appended from its values.
fn append(writer: &mut Writer<'_>, sample: &Sample<'_>) -> Result<usize, WriteRefusal> {
    let flow = match sample {
        Sample::Flow(flow) => flow,
        Sample::Counter(counter) => {
            return writer.append_counters(&counter.words, counter.counters())
        }
    };
    let entries: Vec<u8> = flow.extended().flat_map(extended).collect();
    let (words, count) = (&flow.words, flow.extended_count);
    match &flow.packet {
        PacketData::Header(header) => writer.append_header(words, header, count, &entries),
        PacketData::Ipv4(data) => writer.append_ipv4(words, data, count, &entries),
        PacketData::Ipv6(data) => writer.append_ipv6(words, data, count, &entries),
    }
}

#[test]
fn every_form() {
    let (capture, _) = forms::capture("every-form");
    for datagram in forms::datagrams(&capture) {
        let head = read(datagram).unwrap();
        let (agent, number, uptime) = (head.agent, head.sequence_number, head.uptime);
        let mut buffers = [[0; 65507]; 2];
        let [octets, values] = &mut buffers;
        let mut of_octets = Writer::start(octets, 65507, agent, number, uptime).unwrap();
        let mut of_values = Writer::start(values, 65507, agent, number, uptime).unwrap();
        for read in head.samples() {
            assert_eq!(sample(&read), read.octets());
            let end = read.offset() + read.length();
            assert_eq!(of_octets.append(&sample(&read)), Ok(end));
            assert_eq!(append(&mut of_values, &read), Ok(end));
        }
        assert_eq!(of_octets.octets(), datagram);
        assert_eq!(of_values.octets(), datagram);
    }
}
