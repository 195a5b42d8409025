//! Rule sets checked and run on flow samples.
use crate::calls;
use crate::refusal::RuleRefusal;
use crate::rule::Attribute;

/// Checks a rule set: records of 16 octets, as [`Rule::octets`](crate::Rule::octets) gives them,
/// one behind the other.
///
/// ```
/// use troutgable::{check, Opcode, Rule, RuleReason};
///
/// let ignore = Rule { opcode: Opcode::Ignore, ..Rule::default() };
/// assert_eq!(check(&ignore.octets()), Ok(()));
/// let back = Rule { opcode: Opcode::Goto, parameter: 1, ..Rule::default() };
/// let refusal = check(&back.octets()).unwrap_err();
/// assert_eq!((refusal.reason, refusal.rule), (RuleReason::Target, 1));
/// ```
pub fn check(rules: &[u8]) -> Result<(), RuleRefusal> {
    let mut out = [0];
    match calls::check(rules, &mut out) {
        0 => Ok(()),
        number => Err(RuleRefusal::of(number, out[0])),
    }
}

/// How a rule set ends.
#[derive(Clone, Copy, Debug, PartialEq, Eq, PartialOrd, Ord, Hash)]
pub enum Answer {
    /// 1: the packet is not of interest
    Ignore,
    /// 2: no rule matched
    NoMatch,
    /// 3: the packet is counted
    Count,
    /// 4: the packet is counted, the last item of the key with the packet's own value
    CountPkt,
}

impl Answer {
    fn of(number: u32) -> Option<Answer> {
        [
            Answer::Ignore,
            Answer::NoMatch,
            Answer::Count,
            Answer::CountPkt,
        ]
        .into_iter()
        .find(|answer| answer.number() == number)
    }

    /// The answer's number.
    pub fn number(self) -> u32 {
        match self {
            Answer::Ignore => 1,
            Answer::NoMatch => 2,
            Answer::Count => 3,
            Answer::CountPkt => 4,
        }
    }
}

/// The flow that a packet is counted for: a mask and a value at each attribute's number. All zero
/// but after `Count` and `CountPkt`.
#[derive(Clone, Copy, Debug, Default, PartialEq, Eq, PartialOrd, Ord, Hash)]
pub struct Key {
    /// the masks
    pub masks: [u32; 23],
    /// the values
    pub values: [u32; 23],
}

impl Key {
    /// The attributes that the key has, with mask and value: those whose mask or value is not 0.
    pub fn items(&self) -> impl Iterator<Item = (Attribute, u32, u32)> + '_ {
        let pairs = self.masks.iter().zip(&self.values).enumerate();
        pairs
            .filter(|(_, pair)| pair != &(&0, &0))
            .filter_map(|(i, (mask, value))| Some((Attribute::of(i)?, *mask, *value)))
    }
}

/// What came of running a rule set.
#[derive(Clone, Copy, Debug, PartialEq, Eq)]
pub struct Outcome {
    /// how it ended
    pub answer: Answer,
    /// how many rules were come to, failed tests included
    pub rules: u64,
    /// the flow
    pub key: Key,
}

/// Runs a rule set on a flow sample, both as octets; the sample's are those of
/// [`FlowSample::octets`](crate::FlowSample::octets). Refuses what the check refuses, then octets
/// that are not exactly one flow sample (18).
///
/// The rule set is checked anew in every call. An accepted one of n rules comes to at most
/// n + n^2 + n^3 + n^4 + n^5 rules; without Gosub to at most n, while nested Gosubs can take
/// seconds a sample.
///
/// ```
/// use troutgable::{run, Answer, Attribute, Opcode, Rule, RuleReason};
///
/// // a flow sample from input 3 with an empty header
/// let mut sample = [0; 52];
/// (sample[3], sample[27], sample[35], sample[39]) = (1, 3, 1, 1);
/// let count = Rule { attribute: Attribute::SourceInterface, opcode: Opcode::Count, mask: 255, value: 3, ..Rule::default() };
/// let outcome = run(&count.octets(), &sample)?;
/// assert_eq!((outcome.answer, outcome.rules), (Answer::Count, 1));
/// assert_eq!(outcome.key.items().collect::<Vec<_>>(), [(Attribute::SourceInterface, 255, 3)]);
/// assert_eq!(run(&count.octets(), &[]).unwrap_err().reason, RuleReason::NotOneFlowSample);
/// # Ok::<(), troutgable::RuleRefusal>(())
/// ```
pub fn run(rules: &[u8], sample: &[u8]) -> Result<Outcome, RuleRefusal> {
    let mut out = [0; 48];
    let number = calls::run(rules, sample, &mut out);
    let Some(answer) = Answer::of(number) else {
        return Err(RuleRefusal::of(number, out[0]));
    };
    let key = Key {
        masks: std::array::from_fn(|i| out[2 + i] as u32),
        values: std::array::from_fn(|i| out[25 + i] as u32),
    };
    Ok(Outcome {
        answer,
        rules: out[1],
        key,
    })
}
