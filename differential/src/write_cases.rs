//! Calls of the writers as cases, and read again.

use conformance::value::{PacketData, SampledHeader};
use conformance::write_calls::{CountersValues, FlowValues, Write, WriteCall};

use crate::appends::{Append, Given, GivenFlow};
use crate::case::{Case, Wrong};
use crate::forms::form_of_call;
use crate::given_values::{address_of, ipv4_of, ipv6_of};
use crate::item_numbers::address_words;

/// A call as a case; most are of a form.
pub fn call_case(call: &WriteCall) -> Case {
    let of_kind = |kind| Case::new(kind).octets("buffer", &call.buffer);
    match &call.write {
        Write::Start {
            limit,
            agent,
            sequence,
            uptime,
        } => {
            let [a, b, c, d] = address_words(&agent.octets);
            of_kind("start")
                .number("limit", *limit)
                .numbers("agent", [agent.address_type, a, b, c, d])
                .number("sequence", *sequence)
                .number("uptime", *uptime)
        }
        Write::Append {
            limit,
            length,
            sample,
        } => with_lengths(of_kind("append"), *limit, *length).octets("sample", sample),
        Write::AppendFlow {
            limit,
            length,
            flow,
        } => with_lengths(of_kind("append-octets"), *limit, *length)
            .numbers("words", flow.words)
            .octets("packet", &flow.packet_octets)
            .number("count", flow.entries)
            .octets("entries", &flow.entry_octets),
        Write::Counters(own) => with_counters(of_kind("counters"), own),
        form => form_of_call(form).map_or(of_kind("none"), |form| form.case(&call.buffer)),
    }
}

fn with_lengths(case: Case, limit: usize, length: usize) -> Case {
    case.number("limit", limit).number("length", length)
}

fn with_counters(case: Case, own: &CountersValues) -> Case {
    let words = [own.sequence, own.source, own.interval, own.version];
    let numbers = own.numbers.iter().copied();
    case.numbers("words", words).numbers("numbers", numbers)
}

fn counters_of(case: &Case) -> Result<CountersValues, Wrong> {
    let [sequence, source, interval, version] = case.array_of("words")?;
    Ok(CountersValues {
        sequence,
        source,
        interval,
        version,
        numbers: case.numbers_of("numbers")?,
    })
}

/// The call of a case that is of no form.
pub fn call_of_case(case: &Case) -> Result<WriteCall, Wrong> {
    let write = match case.kind() {
        "start" => Write::Start {
            limit: case.number_of("limit")?,
            agent: address_of(case.array_of("agent")?),
            sequence: case.number_of("sequence")?,
            uptime: case.number_of("uptime")?,
        },
        "append" => Write::Append {
            limit: case.number_of("limit")?,
            length: case.number_of("length")?,
            sample: case.octets_of("sample")?,
        },
        "append-octets" => Write::AppendFlow {
            limit: case.number_of("limit")?,
            length: case.number_of("length")?,
            flow: FlowValues {
                words: case.array_of("words")?,
                packet_octets: case.octets_of("packet")?,
                entries: case.number_of("count")?,
                entry_octets: case.octets_of("entries")?,
            },
        },
        "counters" => Write::Counters(counters_of(case)?),
        other => return Err(format!("there is no kind '{other}' of case")),
    };
    let buffer = case.octets_of("buffer")?;
    Ok(WriteCall { buffer, write })
}

/// An append from values as a case.
pub fn append_case(buffer: &[u8], append: &Append) -> Case {
    let of_kind = |kind| {
        let case = Case::new(kind).octets("buffer", buffer);
        with_lengths(case, append.limit, append.length)
    };
    let flow = match &append.sample {
        Given::Counters(own) => return with_counters(of_kind("append-counters"), own),
        Given::Flow(flow) => flow,
    };
    let packet = |kind| of_kind(kind).numbers("packet", flow.packet_words.iter().copied());
    let case = match &flow.packet {
        PacketData::Header(own) => of_kind("append-header")
            .numbers("packet", [own.protocol, own.frame_length])
            .octets("header", &own.header),
        PacketData::Ipv4(_) => packet("append-ipv4"),
        PacketData::Ipv6(_) => packet("append-ipv6"),
    };
    case.numbers("words", flow.words.iter().copied())
        .octets("entries", &flow.entry_octets)
}

/// The append of a case. The values of IPv4 and IPv6 data in a wrong number of words do not matter.
pub fn append_of_case(case: &Case) -> Result<Append, Wrong> {
    let packet_words: Vec<u32> = match case.kind() {
        "append-ipv4" | "append-ipv6" => case.numbers_of("packet")?,
        _ => Vec::new(),
    };
    let packet = match case.kind() {
        "append-header" => PacketData::Header(header_of(case)?),
        "append-ipv4" => PacketData::Ipv4(ipv4_of(whole(&packet_words))),
        _ => PacketData::Ipv6(ipv6_of(whole(&packet_words))),
    };
    let sample = match case.kind() {
        "append-counters" => Given::Counters(counters_of(case)?),
        _ => Given::Flow(GivenFlow {
            words: case.numbers_of("words")?,
            packet,
            packet_words,
            entry_octets: case.octets_of("entries")?,
        }),
    };
    Ok(Append {
        limit: case.number_of("limit")?,
        length: case.number_of("length")?,
        sample,
    })
}

fn header_of(case: &Case) -> Result<SampledHeader, Wrong> {
    let [protocol, frame_length] = case.array_of("packet")?;
    Ok(SampledHeader {
        protocol,
        frame_length,
        header: case.octets_of("header")?,
    })
}

/// The words if there are so many, otherwise zeros.
fn whole<const N: usize>(words: &[u32]) -> [u32; N] {
    words.try_into().unwrap_or([0; N])
}

#[cfg(test)]
mod tests {
    use super::*;
    use crate::forms::Form;
    use crate::random_appends::random_appends;
    use conformance::inputs::writes;

    #[test]
    fn calls_are_read_again() {
        // Counters are appended by values, as the next test's.
        let by_values = |call: &WriteCall| matches!(call.write, Write::AppendCounters { .. });
        for call in writes(3).filter(|call| !by_values(call)).take(1_000) {
            let case = Case::read(&call_case(&call).to_string()).expect("a case");
            let again = match case.kind() {
                "form" => WriteCall {
                    buffer: case.octets_of("buffer").expect("a buffer"),
                    write: Form::of_case(&case)
                        .expect("a form")
                        .call()
                        .expect("a call"),
                },
                _ => call_of_case(&case).expect("a call"),
            };
            assert_eq!(again, call);
        }
    }

    #[test]
    fn appends_are_read_again() {
        for (buffer, append) in random_appends(3).take(1_000) {
            let case = Case::read(&append_case(&buffer, &append).to_string()).expect("a case");
            let again = append_of_case(&case).expect("an append");
            assert_eq!(append_case(&buffer, &again), case);
            assert_eq!(again.sample.function(), append.sample.function());
            assert_eq!(again.sample.octets(), append.sample.octets());
        }
    }
}
