//! The machine that runs rules over the attributes of a flow sample, as in
//! RFC 2722, section 4.4. Its lists have no limit, and it looks at nothing
//! that a rule declares.

use crate::attributes::{Attributes, NULL};
use crate::rules::*;

/// How a run ends; the discriminant is the opcode of the same name.
#[derive(Clone, Copy, Debug, PartialEq, Eq, PartialOrd, Ord)]
pub enum Answer {
    /// The packet is not counted.
    Ignore = 1,
    /// No rule matched the packet.
    NoMatch = 2,
    /// The packet is counted under the rule's value.
    Count = 3,
    /// The packet is counted under its own masked value.
    CountPkt = 4,
}

/// An entry of the pattern queue.
#[derive(Clone, Copy, Debug, PartialEq, Eq)]
pub struct Item {
    /// The attribute that it is for.
    pub attribute: u8,
    /// The rule's mask.
    pub mask: u32,
    /// The rule's value, or the packet's under the mask.
    pub value: u32,
}

/// What one rule leads to.
#[derive(Clone, Copy, Debug, PartialEq, Eq)]
pub enum Step {
    /// Another rule comes next.
    Goes,
    /// The run ends with this answer.
    Ends(Answer),
    /// There is no answer.
    Stuck,
}

/// The machine between two rules.
#[derive(Clone, Debug)]
pub struct Machine<'a> {
    rules: &'a [Rule],
    attributes: Attributes,
    /// The number of the rule that comes next.
    pub number: usize,
    /// The test indicator.
    pub tests: bool,
    /// The numbers of the Gosubs that are open, the newest last.
    pub calls: Vec<usize>,
    /// The queued items, the oldest first.
    pub items: Vec<Item>,
    /// The rules come to so far.
    pub count: u64,
}

impl<'a> Machine<'a> {
    /// The machine before rule 1.
    pub fn new(rules: &'a [Rule], attributes: Attributes) -> Machine<'a> {
        Machine {
            rules,
            attributes,
            number: 1,
            tests: true,
            calls: Vec::new(),
            items: Vec::new(),
            count: 0,
        }
    }

    /// Runs to the end; nothing where the machine is stuck. Sets that the
    /// check refuses may run for ever.
    pub fn run(&mut self) -> Option<Answer> {
        loop {
            match self.step() {
                Step::Goes => {}
                Step::Ends(answer) => return Some(answer),
                Step::Stuck => return None,
            }
        }
    }

    /// Comes to one rule.
    pub fn step(&mut self) -> Step {
        let Some(rule) = rule_at(self.rules, self.number) else {
            return Step::Stuck;
        };
        self.count += 1;
        if self.tests && !self.succeeds(rule) {
            return self.next_rule();
        }
        self.act(rule)
    }

    /// The packet's value of the rule's attribute under its mask.
    fn masked(&self, rule: &Rule) -> u32 {
        self.attributes.value(rule.attribute) & rule.mask
    }

    fn succeeds(&self, rule: &Rule) -> bool {
        rule.attribute == NULL || self.masked(rule) == rule.value
    }

    /// Where a failed test leads.
    fn next_rule(&mut self) -> Step {
        if self.number >= self.rules.len() {
            return Step::Ends(Answer::NoMatch);
        }
        self.number += 1;
        Step::Goes
    }

    fn act(&mut self, rule: &Rule) -> Step {
        match rule.opcode {
            IGNORE => Step::Ends(Answer::Ignore),
            NO_MATCH => Step::Ends(Answer::NoMatch),
            COUNT => {
                self.queue(rule, rule.value);
                Step::Ends(Answer::Count)
            }
            COUNT_PKT => {
                self.queue(rule, self.masked(rule));
                Step::Ends(Answer::CountPkt)
            }
            RETURN => self.come_back(rule),
            GOSUB..=POP_TO_ACT => self.go(rule),
            _ => Step::Stuck,
        }
    }

    fn queue(&mut self, rule: &Rule, value: u32) {
        self.items.push(Item {
            attribute: rule.attribute,
            mask: rule.mask,
            value,
        });
    }

    fn come_back(&mut self, rule: &Rule) -> Step {
        let Some(gosub) = self.calls.pop() else {
            return Step::Stuck;
        };
        self.number = gosub + usize::from(rule.parameter);
        self.tests = false;
        Step::Goes
    }

    /// An action with a goto flag. Assign and AssignAct only go on.
    fn go(&mut self, rule: &Rule) -> Step {
        match rule.opcode {
            GOSUB | GOSUB_ACT => self.calls.push(self.number),
            PUSH_RULE_TO | PUSH_RULE_TO_ACT => self.queue(rule, rule.value),
            PUSH_PKT_TO | PUSH_PKT_TO_ACT => self.queue(rule, self.masked(rule)),
            POP_TO | POP_TO_ACT if self.items.pop().is_none() => return Step::Stuck,
            _ => {}
        }
        self.tests = has_test_flag(rule.opcode);
        self.number = rule.parameter.into();
        Step::Goes
    }
}

/// The test flag of an opcode with a goto flag.
fn has_test_flag(opcode: u8) -> bool {
    matches!(
        opcode,
        GOSUB | ASSIGN | GOTO | PUSH_RULE_TO | PUSH_PKT_TO | POP_TO
    )
}
