//! The reader's answer as text: all numbers decimal, one item a line.

use crate::cursor::Span;
use crate::reader::{read, Reading, SamplePlaces};
use crate::value::*;

/// The lines that answer one string of octets.
pub fn answer(octets: &[u8]) -> String {
    match read(octets) {
        Ok(reading) => accepted(&reading),
        Err(refusal) => format!("{refusal}\n"),
    }
}

/// Appends one line: its beginning, then each number after a space.
fn line(out: &mut String, beginning: &str, numbers: impl IntoIterator<Item = u64>) {
    out.push_str(beginning);
    for number in numbers {
        out.push(' ');
        out.push_str(&number.to_string());
    }
    out.push('\n');
}

/// Appends one line of 32-bit numbers.
fn words(out: &mut String, beginning: &str, numbers: &[u32]) {
    line(
        out,
        beginning,
        numbers.iter().map(|&number| u64::from(number)),
    );
}

fn accepted(reading: &Reading) -> String {
    let datagram = &reading.datagram;
    let [t, a, b, c, d] = address_words(&datagram.agent_address);
    let mut out = format!(
        "accepted agent {t} {a} {b} {c} {d} sequence {} uptime {} samples {} first {}\n",
        datagram.sequence_number,
        datagram.uptime,
        datagram.samples.len(),
        reading.first_sample,
    );
    for (sample, places) in datagram.samples.iter().zip(&reading.places) {
        match sample {
            Sample::Flow(flow) => flow_sample(&mut out, flow, places),
            Sample::Counters(counters) => counters_sample(&mut out, counters, places.sample),
        }
    }
    out
}

/// The type and the octets as four numbers; a short address is the first.
fn address_words(address: &Address) -> [u32; 5] {
    match address {
        Address::IpV4(octets) => [address.type_number(), u32::from_be_bytes(*octets), 0, 0, 0],
        Address::IpV6(octets) => {
            let [a, b, c, d] = quarters(octets);
            [address.type_number(), a, b, c, d]
        }
    }
}

/// Sixteen octets as four numbers.
fn quarters(octets: &[u8; 16]) -> [u32; 4] {
    let whole = u128::from_be_bytes(*octets);
    [96, 64, 32, 0].map(|shift| (whole >> shift) as u32)
}

fn flow_sample(out: &mut String, flow: &FlowSample, places: &SamplePlaces) {
    let own = [
        flow.sequence_number,
        flow.source_id,
        flow.sampling_rate,
        flow.sample_pool,
        flow.drops,
        flow.input,
        flow.output,
    ];
    let place = span_numbers(places.sample);
    line(out, "flow", place.into_iter().chain(own.map(u64::from)));
    // The strings come in the order in which the values name them.
    let mut strings = places.strings.iter().copied();
    packet_data(out, &flow.packet_data, &mut strings);
    for entry in &flow.extended_data {
        extended_data(out, entry, &mut strings);
    }
}

fn span_numbers(span: Span) -> [u64; 2] {
    [span.offset as u64, span.length as u64]
}

/// The numbers of the next string's place.
fn next_place(strings: &mut impl Iterator<Item = Span>) -> [u64; 2] {
    span_numbers(strings.next().unwrap_or_default())
}

fn packet_data(out: &mut String, data: &PacketData, strings: &mut impl Iterator<Item = Span>) {
    match data {
        PacketData::Header(header) => {
            let own = [header.protocol, header.frame_length].map(u64::from);
            line(out, " header", own.into_iter().chain(next_place(strings)));
        }
        PacketData::Ipv4(ipv4) => sampled_ipv4(out, ipv4),
        PacketData::Ipv6(ipv6) => sampled_ipv6(out, ipv6),
    }
}

fn sampled_ipv4(out: &mut String, ipv4: &SampledIpv4) {
    let numbers = [
        ipv4.length,
        ipv4.protocol,
        u32::from_be_bytes(ipv4.src_ip),
        u32::from_be_bytes(ipv4.dst_ip),
        ipv4.src_port,
        ipv4.dst_port,
        ipv4.tcp_flags,
        ipv4.tos,
    ];
    words(out, " ipv4", &numbers);
}

fn sampled_ipv6(out: &mut String, ipv6: &SampledIpv6) {
    let mut numbers = vec![ipv6.length, ipv6.protocol];
    numbers.extend(quarters(&ipv6.src_ip));
    numbers.extend(quarters(&ipv6.dst_ip));
    numbers.extend([ipv6.src_port, ipv6.dst_port, ipv6.tcp_flags, ipv6.priority]);
    words(out, " ipv6", &numbers);
}

fn extended_data(out: &mut String, entry: &ExtendedData, strings: &mut impl Iterator<Item = Span>) {
    match entry {
        ExtendedData::Switch(switch) => extended_switch(out, switch),
        ExtendedData::Router(router) => {
            let [t, a, b, c, d] = address_words(&router.nexthop);
            words(
                out,
                " router",
                &[t, a, b, c, d, router.src_mask, router.dst_mask],
            );
        }
        ExtendedData::Gateway(gateway) => extended_gateway(out, gateway),
        ExtendedData::User(_) => {
            let src_user = next_place(strings);
            let dst_user = next_place(strings);
            line(out, " user", src_user.into_iter().chain(dst_user));
        }
        ExtendedData::Url(url) => {
            let direction = [u64::from(url.direction.number())];
            line(
                out,
                " url",
                direction.into_iter().chain(next_place(strings)),
            );
        }
    }
}

fn extended_switch(out: &mut String, switch: &ExtendedSwitch) {
    let numbers = [
        switch.src_vlan,
        switch.src_priority,
        switch.dst_vlan,
        switch.dst_priority,
    ];
    words(out, " switch", &numbers);
}

fn extended_gateway(out: &mut String, gateway: &ExtendedGateway) {
    words(
        out,
        " gateway",
        &[gateway.r#as, gateway.src_as, gateway.src_peer_as],
    );
    for segment in &gateway.dst_as_path {
        let beginning = format!("  segment {}", segment.type_number());
        words(out, &beginning, segment.numbers());
    }
    words(out, "  communities", &gateway.communities);
    words(out, "  localpref", &[gateway.localpref]);
}

fn counters_sample(out: &mut String, sample: &CountersSample, place: Span) {
    let own = [
        sample.sequence_number,
        sample.source_id,
        sample.sampling_interval,
        sample.version.number(),
    ];
    let numbers = span_numbers(place).into_iter().chain(own.map(u64::from));
    line(
        out,
        "counters",
        numbers.chain(sample.counters.iter().copied()),
    );
}
