//! Values as sflow4_write takes them: a kind, words and octets.

use conformance::write_calls::{FlowValues, Write};

use crate::answers::FILL_OCTET;
use crate::calls;
use crate::case::{Case, Wrong};
use crate::given_values::*;
use crate::item_numbers::*;

const HEADER: u32 = 1;
const IPV4: u32 = 2;
const IPV6: u32 = 3;
const SWITCH: u32 = 11;
const ROUTER: u32 = 12;
const GATEWAY: u32 = 13;
const USER: u32 = 14;
const URL: u32 = 15;
const SEGMENT: u32 = 16;
const FLOW: u32 = 21;

/// Octets given where a kind does not look at them.
const NOT_LOOKED_AT: [u8; 3] = [1, 0, 255];

/// What is given to sflow4_write.
#[derive(Clone, Debug)]
pub struct Form {
    /// Which form it is.
    pub kind: u32,
    /// Its words.
    pub words: Vec<u32>,
    /// Its octets, if the kind has some.
    first: Vec<u8>,
    /// Its second octets, if the kind has some.
    second: Vec<u8>,
}

impl Form {
    /// A form of words alone.
    fn of_words(kind: u32, words: Vec<u32>) -> Form {
        Form::with_octets(kind, words, &NOT_LOOKED_AT)
    }

    /// A form of words and octets.
    fn with_octets(kind: u32, words: Vec<u32>, first: &[u8]) -> Form {
        Form {
            kind,
            words,
            first: first.to_vec(),
            second: NOT_LOOKED_AT.to_vec(),
        }
    }

    /// Whether another number of words is always wrong for the kind.
    pub fn has_fixed_words(&self) -> bool {
        self.kind != GATEWAY && self.kind != SEGMENT
    }

    /// The fewest words of the kind.
    pub fn fewest_words(&self) -> usize {
        match self.kind {
            GATEWAY => 5,
            SEGMENT => 1,
            _ => self.words.len(),
        }
    }

    /// The form and its buffer as a case.
    pub fn case(&self, buffer: &[u8]) -> Case {
        Case::new("form")
            .octets("buffer", buffer)
            .number("kind", self.kind)
            .numbers("words", self.words.iter().copied())
            .octets("first", &self.first)
            .octets("second", &self.second)
    }

    /// The form of a case.
    pub fn of_case(case: &Case) -> Result<Form, Wrong> {
        Ok(Form {
            kind: case.number_of("kind")?,
            words: case.numbers_of("words")?,
            first: case.octets_of("first")?,
            second: case.octets_of("second")?,
        })
    }

    /// The call of the form; nothing where the kind is none or has another number of words.
    pub fn call(&self) -> Option<Write> {
        let words = self.words.as_slice();
        let (first, second) = (self.first.clone(), self.second.clone());
        Some(match (self.kind, words) {
            (HEADER, &[protocol, frame_length]) => Write::Header {
                protocol,
                frame_length,
                header: first,
            },
            (IPV4, _) => Write::Ipv4(ipv4_of(words.try_into().ok()?)),
            (IPV6, _) => Write::Ipv6(ipv6_of(words.try_into().ok()?)),
            (SWITCH, _) => Write::Switch(switch_of(words.try_into().ok()?)),
            (ROUTER, &[kind, a, b, c, d, src_mask, dst_mask]) => Write::Router {
                nexthop: address_of([kind, a, b, c, d]),
                src_mask,
                dst_mask,
            },
            (GATEWAY, _) => return self.gateway_call(),
            (SEGMENT, &[kind, ref numbers @ ..]) => Write::Segment {
                kind,
                numbers: numbers.to_vec(),
            },
            (USER, []) => Write::User {
                src_user: first,
                dst_user: second,
            },
            (URL, &[direction]) => Write::Url {
                direction,
                url: first,
            },
            (FLOW, _) => return self.flow_call(),
            _ => return None,
        })
    }

    fn gateway_call(&self) -> Option<Write> {
        let &[a, b, c, segments, local_preference, ref communities @ ..] = self.words.as_slice()
        else {
            return None;
        };
        Some(Write::Gateway {
            words: [a, b, c],
            segments,
            segment_octets: self.first.clone(),
            communities: communities.to_vec(),
            local_preference,
        })
    }

    fn flow_call(&self) -> Option<Write> {
        let &[ref words @ .., entries] = self.words.as_slice() else {
            return None;
        };
        Some(Write::Flow(FlowValues {
            words: words.try_into().ok()?,
            packet_octets: self.first.clone(),
            entries,
            entry_octets: self.second.clone(),
        }))
    }

    /// Writes the form to a buffer.
    pub fn write(&self, buffer: &mut [u8], out: &mut [u64]) -> u32 {
        calls::write(
            self.kind,
            &self.words,
            &self.first,
            &self.second,
            buffer,
            out,
        )
    }

    /// The form's octets, written to a buffer with room for them, or the refusal.
    pub fn octets(&self) -> Result<Vec<u8>, u32> {
        let room = 4 * self.words.len() + self.first.len() + self.second.len() + 32;
        written(room, |buffer, out| self.write(buffer, out))
    }
}

/// The octets that a call writes to a buffer of this room, or the refusal.
pub fn written(room: usize, call: impl Fn(&mut [u8], &mut [u64]) -> u32) -> Result<Vec<u8>, u32> {
    let mut buffer = vec![FILL_OCTET; room];
    let mut length = [0];
    match call(&mut buffer, &mut length) {
        0 => {
            buffer.truncate(length[0] as usize);
            Ok(buffer)
        }
        refusal => Err(refusal),
    }
}

/// The form of a call, if sflow4_write is the function for it.
pub fn form_of_call(write: &Write) -> Option<Form> {
    Some(match write {
        Write::Header {
            protocol,
            frame_length,
            header,
        } => Form::with_octets(HEADER, vec![*protocol, *frame_length], header),
        Write::Ipv4(own) => Form::of_words(IPV4, ipv4_words(own)),
        Write::Ipv6(own) => Form::of_words(IPV6, ipv6_words(own)),
        Write::Switch(own) => Form::of_words(SWITCH, switch_words(own).to_vec()),
        Write::Router {
            nexthop,
            src_mask,
            dst_mask,
        } => {
            let address = address_words(&nexthop.octets);
            router_form(nexthop.address_type, address, [*src_mask, *dst_mask])
        }
        Write::Segment { kind, numbers } => segment_form(*kind, numbers),
        Write::User { src_user, dst_user } => user_form(src_user, dst_user),
        Write::Url { direction, url } => Form::with_octets(URL, vec![*direction], url),
        Write::Flow(own) => flow_form(own),
        Write::Gateway { .. } => return gateway_call_form(write),
        _ => return None,
    })
}

fn gateway_call_form(write: &Write) -> Option<Form> {
    let Write::Gateway {
        words,
        segments,
        segment_octets,
        communities,
        local_preference,
    } = write
    else {
        return None;
    };
    let mut all = words.to_vec();
    all.extend([*segments, *local_preference]);
    all.extend(communities);
    Some(Form::with_octets(GATEWAY, all, segment_octets))
}

fn router_form(address_type: u32, address: [u32; 4], masks: [u32; 2]) -> Form {
    let mut words = vec![address_type];
    words.extend(address);
    words.extend(masks);
    Form::of_words(ROUTER, words)
}

fn segment_form(kind: u32, numbers: &[u32]) -> Form {
    let mut words = vec![kind];
    words.extend(numbers);
    Form::of_words(SEGMENT, words)
}

fn user_form(src_user: &[u8], dst_user: &[u8]) -> Form {
    Form {
        second: dst_user.to_vec(),
        ..Form::with_octets(USER, Vec::new(), src_user)
    }
}

/// The form of a flow sample.
pub fn flow_form(own: &FlowValues) -> Form {
    let mut words = own.words.to_vec();
    words.push(own.entries);
    Form {
        second: own.entry_octets.clone(),
        ..Form::with_octets(FLOW, words, &own.packet_octets)
    }
}

/// The form of the extended entry that an array of sflow4_extended tells of; a gateway's path
/// segments are written first.
pub fn entry_form(octets: &[u8], array: &[u64]) -> Result<Form, u32> {
    let string = |place: usize| octets_at(octets, array[place], array[place + 1]);
    match array[0] {
        1 => Ok(Form::of_words(SWITCH, narrowed(&array[2..6]))),
        2 => Ok(Form::of_words(ROUTER, narrowed(&array[2..9]))),
        3 => gateway_form(octets, array),
        4 => Ok(user_form(string(2)?, string(4)?)),
        5 => Ok(Form::with_octets(URL, narrowed(&array[2..3]), string(3)?)),
        _ => Err(NO_ITEM),
    }
}

fn gateway_form(octets: &[u8], array: &[u64]) -> Result<Form, u32> {
    let mut segment_octets = Vec::new();
    let mut at = array[6];
    for _ in 0..array[5] {
        let mut segment = [0; 4];
        done(calls::segment(octets, at as usize, &mut segment))?;
        let numbers = words_at(octets, segment[3], segment[2])?;
        segment_octets.extend(segment_form(segment[0] as u32, &numbers).octets()?);
        at = segment[1];
    }
    let mut words = narrowed(&array[2..6]);
    words.push(array[9] as u32);
    words.extend(words_at(octets, array[8], array[7])?);
    Ok(Form::with_octets(GATEWAY, words, &segment_octets))
}

/// What is answered where the library told of a place or a kind that there is not; no function
/// answers this.
const NO_ITEM: u32 = u32::MAX;

/// A number of a call as an answer.
pub fn done(number: u32) -> Result<(), u32> {
    match number {
        0 => Ok(()),
        refusal => Err(refusal),
    }
}

/// The octets at a place that the library told.
pub fn octets_at(octets: &[u8], at: u64, length: u64) -> Result<&[u8], u32> {
    let end = at.wrapping_add(length) as usize;
    octets.get(at as usize..end).ok_or(NO_ITEM)
}

/// The words at a place that the library told.
fn words_at(octets: &[u8], at: u64, count: u64) -> Result<Vec<u32>, u32> {
    let own = octets_at(octets, at, count.wrapping_mul(4))?;
    let words = own.chunks_exact(4);
    Ok(words
        .map(|word| {
            word.iter()
                .fold(0, |all, &octet| all << 8 | u32::from(octet))
        })
        .collect())
}

/// The words that an array's numbers are.
pub fn narrowed(numbers: &[u64]) -> Vec<u32> {
    numbers.iter().map(|&number| number as u32).collect()
}
