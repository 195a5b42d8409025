//! The engine: a rule set and the octets of a flow sample to an answer, or a
//! refusal.

use crate::attributes::{attributes, exact_flow_sample, VALUED};
use crate::check::{check, RuleRefusal};
use crate::machine::{Answer, Item, Machine};

/// An attribute's entry in the key.
#[derive(Clone, Copy, Debug, Default, PartialEq, Eq)]
pub struct Entry {
    /// The mask that the attribute was taken with.
    pub mask: u32,
    /// The masked value.
    pub value: u32,
}

/// The flow key: an entry for each attribute but Null, by their numbers.
pub type Key = [Entry; 10];

/// What a run comes to.
#[derive(Clone, Copy, Debug, PartialEq, Eq)]
pub struct Outcome {
    /// How the run ended.
    pub answer: Answer,
    /// The number of rules come to.
    pub rules: u64,
    /// The flow key; all zero unless the packet was counted.
    pub key: Key,
}

/// Checks the set, then the sample, then runs the one over the other.
pub fn engine(set: &[u8], sample: &[u8]) -> Result<Outcome, RuleRefusal> {
    let rules = check(set)?;
    let no_flow_sample = RuleRefusal {
        number: 18,
        rule: 0,
    };
    let flow = exact_flow_sample(sample).ok_or(no_flow_sample)?;
    let mut machine = Machine::new(&rules, attributes(&flow));
    let Some(answer) = machine.run() else {
        unreachable!("an accepted set is never stuck");
    };
    let key = match answer {
        Answer::Count | Answer::CountPkt => key_of(&machine.items),
        Answer::Ignore | Answer::NoMatch => Key::default(),
    };
    Ok(Outcome {
        answer,
        rules: machine.count,
        key,
    })
}

/// The key that takes each item's mask and value, the oldest first.
fn key_of(items: &[Item]) -> Key {
    let mut key = Key::default();
    for item in items {
        // Null has no entry.
        if let Some(at) = VALUED.iter().position(|&n| n == item.attribute) {
            key[at] = Entry {
                mask: item.mask,
                value: item.value,
            };
        }
    }
    key
}
