//! Writing: calls of every writer, with the whole buffer afterwards.

use conformance::inputs::{datagrams, writes};
use conformance::reader::read;
use conformance::write_calls::{CountersValues, Write, WriteCall};

use crate::answers::*;
use crate::appends::{Append, Given, GivenFlow};
use crate::calls;
use crate::case::{Case, Wrong};
use crate::forms::{flow_form, form_of_call, Form};
use crate::item_numbers::address_words;
use crate::parts::Inputs;
use crate::random_appends::{appends_behind_many, border_appends, random_appends, AppendCall};
use crate::rewriting::{compare_rewriting, compare_within};
use crate::tally::{Tally, Told};
use crate::text::{from_difference, hex};
use crate::write_cases::*;

/// Calls at scale 1.
const CALLS: usize = 300_000;

/// Appends from values at scale 1, besides those among the calls.
const APPENDS: usize = 60_000;

/// Datagrams at scale 1; the accepted ones are written again.
const DATAGRAMS: usize = 30_000;

/// Octets behind a buffer; they stay.
pub const BEHIND: usize = 16;

/// Compares on the calls of a seed, on its appends from values, at the borders, which are the same for
/// every seed, and on its accepted datagrams.
pub fn compare_all(tally: &mut Tally, inputs: &Inputs) {
    for call in writes(inputs.seed).take(inputs.count(CALLS)) {
        tally.input();
        compare_call(tally, &call);
        if let Some(form) = form_of_call(&call.write) {
            let wrong = wrong_form(tally.inputs() as usize, form);
            compare_wrong_form(tally, &call.buffer, &wrong);
        }
    }
    if inputs.fixed {
        compare_appends(tally, border_appends());
        compare_appends(tally, appends_behind_many());
        compare_octets(tally, appends_behind_many());
    }
    let appends = random_appends(inputs.seed).take(inputs.count(APPENDS));
    compare_appends(tally, appends);
    for octets in datagrams(inputs.seed).take(inputs.count(DATAGRAMS)) {
        if let Ok(reading) = read(&octets) {
            tally.input();
            compare_rewriting(tally, &octets, &reading);
        }
    }
}

/// Compares appends of the same samples given as octets.
fn compare_octets(tally: &mut Tally, appends: Vec<AppendCall>) {
    for (buffer, append) in appends {
        let write = Write::Append {
            limit: append.limit,
            length: append.length,
            sample: append.sample.octets().unwrap_or_default(),
        };
        tally.input();
        compare_call(tally, &WriteCall { buffer, write });
    }
}

fn compare_appends(tally: &mut Tally, appends: impl IntoIterator<Item = AppendCall>) {
    for (buffer, append) in appends {
        tally.input();
        compare_append(tally, &buffer, &append);
    }
}

/// Compares on a kept input.
pub fn compare_case(tally: &mut Tally, case: &Case) -> Result<(), Wrong> {
    let buffer = || case.octets_of("buffer");
    match case.kind() {
        "rewriting" => compare_rewritten_case(tally, case)?,
        "append-header" | "append-ipv4" | "append-ipv6" | "append-counters" => {
            compare_append(tally, &buffer()?, &append_of_case(case)?);
        }
        "form" => {
            let (buffer, form) = (buffer()?, Form::of_case(case)?);
            match form.call() {
                Some(write) => compare_call(tally, &WriteCall { buffer, write }),
                None => compare_wrong_form(tally, &buffer, &form),
            }
        }
        _ => compare_call(tally, &call_of_case(case)?),
    }
    Ok(())
}

/// Compares on a kept datagram that is written again.
fn compare_rewritten_case(tally: &mut Tally, case: &Case) -> Result<(), Wrong> {
    let octets = case.octets_of("octets")?;
    let refused = |refusal| format!("the second program does not accept the datagram: {refusal}");
    let reading = read(&octets).map_err(refused)?;
    compare_within(tally, &octets, &reading, case.number_of("limit")?);
    Ok(())
}

/// An answer of the second program.
fn answer_of(second: Result<usize, u32>) -> Answer {
    match second {
        Ok(length) => Answer::new(0, vec![length as u64]),
        Err(refusal) => Answer::new(refusal, Vec::new()),
    }
}

/// Compares a call: its number, the length and the whole buffer.
fn compare_call(tally: &mut Tally, call: &WriteCall) {
    if let Some(append) = append_of_call(&call.write) {
        return compare_append(tally, &call.buffer, &append);
    }
    let input = || call_case(call);
    tally.guarded(&input, |tally| {
        let (second, expected) = call.carried_out();
        let ours = |buffer: &mut [u8], out: &mut [u64]| carry_out(&call.write, buffer, out);
        compare_written(
            tally,
            name_of(&call.write),
            &input,
            (&answer_of(second), &expected),
            &call.buffer,
            &ours,
        );
    });
}

/// Compares an append from values.
fn compare_append(tally: &mut Tally, before: &[u8], append: &Append) {
    let input = || append_case(before, append);
    tally.guarded(&input, |tally| {
        let mut expected = before.to_vec();
        let second = answer_of(append.second(&mut expected));
        let ours = |buffer: &mut [u8], out: &mut [u64]| append.ours(buffer, out);
        let function = append.sample.function();
        compare_written(tally, function, &input, (&second, &expected), before, &ours);
    });
}

/// The append of a call, if it is given by values. A flow sample whose packet octets are not packet
/// data has none.
fn append_of_call(write: &Write) -> Option<Append> {
    let (limit, length, sample) = match write {
        Write::AppendFlow {
            limit,
            length,
            flow,
        } => (limit, length, Given::Flow(GivenFlow::of_octets(flow)?)),
        Write::AppendCounters {
            limit,
            length,
            counters,
        } => (limit, length, Given::Counters(counters.clone())),
        _ => return None,
    };
    Some(Append {
        limit: *limit,
        length: *length,
        sample,
    })
}

/// Compares what a call does to a buffer; the second program's answer comes with its buffer.
fn compare_written(
    tally: &mut Tally,
    function: &str,
    input: &dyn Fn() -> Case,
    (second, expected): (&Answer, &[u8]),
    before: &[u8],
    ours: &dyn Fn(&mut [u8], &mut [u64]) -> u32,
) {
    let room = tally.room(tally.inputs() as usize % 3).min(ROOM);
    let mut array = [FILL; ROOM];
    let mut buffer = before.to_vec();
    buffer.resize(before.len() + BEHIND, FILL_OCTET);
    let number = ours(&mut buffer[..before.len()], &mut array[..room]);
    let (front, behind) = buffer.split_at(before.len());
    let same = number == second.number
        && has_taken(&array, room, &second.numbers)
        && front == expected
        && behind.iter().all(|&octet| octet == FILL_OCTET);
    tally.compare(same, function, || Told {
        input: input().number("room", room),
        ours: format!(
            "{} buffer {} behind {}",
            numbers_text(number, &array),
            from_difference(front, expected),
            hex(behind)
        ),
        second: format!(
            "{} buffer {}",
            numbers_text(second.number, &second.numbers),
            from_difference(expected, front)
        ),
    });
}

/// Calls the library's function for a call.
fn carry_out(write: &Write, buffer: &mut [u8], out: &mut [u64]) -> u32 {
    match write {
        Write::Start {
            limit,
            agent,
            sequence,
            uptime,
        } => {
            let agent = (agent.address_type, address_words(&agent.octets));
            calls::start(buffer, *limit, agent, *sequence, *uptime, out)
        }
        Write::Append {
            limit,
            length,
            sample,
        } => calls::append(buffer, *limit, *length, sample, out),
        Write::AppendFlow {
            limit,
            length,
            flow,
        } => append_written(buffer, *limit, *length, flow_form(flow).octets(), out),
        Write::Counters(own) => write_counters(own, buffer, out),
        _ => form_of_call(write).map_or(u32::MAX, |form| form.write(buffer, out)),
    }
}

/// Appends a sample that was written from values. Where they were refused no octets are given,
/// which are refused as the values were, behind what is tested before them.
fn append_written(
    buffer: &mut [u8],
    limit: usize,
    length: usize,
    sample: Result<Vec<u8>, u32>,
    out: &mut [u64],
) -> u32 {
    match sample {
        Ok(sample) => calls::append(buffer, limit, length, &sample, out),
        Err(22) => calls::append(buffer, limit, length, &[], out),
        Err(refusal) => refusal,
    }
}

fn write_counters(own: &CountersValues, buffer: &mut [u8], out: &mut [u64]) -> u32 {
    let words = [own.sequence, own.source, own.interval, own.version];
    calls::write_counters(words, &own.numbers, buffer, out)
}

/// The library's function for a call.
fn name_of(write: &Write) -> &'static str {
    match write {
        Write::Start { .. } => "sflow4_start",
        Write::Append { .. } => "sflow4_append",
        Write::AppendFlow { .. } => "sflow4_write and sflow4_append",
        Write::Counters(_) => "sflow4_write_counters",
        _ => "sflow4_write",
    }
}

/// Kinds that are none.
const NO_KINDS: [u32; 9] = [0, 4, 10, 17, 20, 22, 100, 1 << 31, u32::MAX];

/// The form with too few or too many words, or of no kind.
fn wrong_form(turn: usize, mut form: Form) -> Form {
    match turn % 3 {
        0 => form.kind = NO_KINDS[turn / 3 % NO_KINDS.len()],
        1 if form.has_fixed_words() => form.words.push(turn as u32),
        _ if form.fewest_words() > 0 => form.words.truncate(turn / 3 % form.fewest_words()),
        _ => form.words.push(0),
    }
    form
}

/// A wrong form is refused with 22; nothing is changed.
fn compare_wrong_form(tally: &mut Tally, buffer: &[u8], form: &Form) {
    let second = Answer::new(22, Vec::new());
    let input = || form.case(buffer);
    let ours = |buffer: &mut [u8], out: &mut [u64]| form.write(buffer, out);
    compare_written(
        tally,
        "sflow4_write",
        &input,
        (&second, buffer),
        buffer,
        &ours,
    );
}
