//! Random rule sets that the check accepts. A layout says where each rule
//! stands; here the rules get actions and tests that fit it.

use crate::attributes::{Attributes, NULL, VALUED};
use crate::check::MOST_ITEMS;
use crate::random::Random;
use crate::rule_layout::{lay_out, Layout, Place, Plan};
use crate::rules::*;

/// An accepted set. Its tests often succeed for one of the packets.
pub fn accepted_set(random: &mut Random, plan: &Plan, packets: &[Attributes]) -> Vec<Rule> {
    let layout = lay_out(random, plan);
    let gosubs = gosubs(&layout);
    let mut builder = Builder {
        random,
        plan,
        layout: &layout,
        gosubs,
        packets,
    };
    (1..=plan.rules)
        .map(|number| builder.rule(number))
        .collect()
}

/// A plan for a set of so many rules.
pub fn any_plan(random: &mut Random, rules: usize) -> Plan {
    Plan {
        rules,
        calls: [0, 1, 3, 4, 5][random.below(5)],
        changes: [0, 2, 4, 7][random.below(4)],
        adds: [4, 5, 7, 8][random.below(4)],
        ends: random.below(3) / 2,
        passes: [2, 5, 7][random.below(3)],
    }
}

/// For each part the numbers of its Gosubs.
fn gosubs(layout: &Layout) -> Vec<Vec<usize>> {
    let begun = |part: usize| {
        let first = layout.parts[part].first;
        first != 0 && first <= layout.places.len()
    };
    let mut all = vec![Vec::new(); layout.parts.len()];
    for (number, place) in (1..).zip(&layout.places) {
        if let Some(part) = place.calls.filter(|&part| begun(part)) {
            all[part].push(number);
        }
    }
    all
}

struct Builder<'a> {
    random: &'a mut Random,
    plan: &'a Plan,
    layout: &'a Layout,
    /// For each part the numbers of its Gosubs.
    gosubs: Vec<Vec<usize>>,
    packets: &'a [Attributes],
}

/// An opcode and its parameter.
type Action = (u8, u8);

impl Builder<'_> {
    fn rule(&mut self, number: usize) -> Rule {
        let place = self.layout.places[number - 1];
        let (opcode, parameter) = self.action(number, place);
        let (attribute, mask, value) = self.test(number, place);
        let depth = self.layout.parts[place.part].depth;
        Rule::new(opcode, parameter)
            .with_test(attribute, mask, value)
            .inside(self.layout.home(place.part), depth)
            .holding(place.held)
    }

    fn action(&mut self, number: usize, place: Place) -> Action {
        if let Some(gosub) = self.gosub(number, place) {
            return gosub;
        }
        if self.random.below(16) < self.plan.ends {
            return self.end(place);
        }
        let chosen = match self.random.below(15) {
            0..=4 => self.come_back(place),
            5..=8 => self.push(number, place),
            9..=11 => self.pop(number, place),
            _ => self.goto(number, place),
        };
        let possible = chosen.or_else(|| self.any_move(number, place));
        possible.unwrap_or_else(|| self.end(place))
    }

    /// The first action that can be done here and is no end.
    fn any_move(&mut self, number: usize, place: Place) -> Option<Action> {
        let goto = self.goto(number, place);
        let push = goto.or_else(|| self.push(number, place));
        let back = push.or_else(|| self.come_back(place));
        back.or_else(|| self.pop(number, place))
    }

    fn gosub(&mut self, number: usize, place: Place) -> Option<Action> {
        let part = place.calls?;
        let called = self.gosubs[part].contains(&number);
        let opcode = self.with_or_without_act(GOSUB);
        called.then_some((opcode, self.layout.home(part)))
    }

    fn with_or_without_act(&mut self, opcode: u8) -> u8 {
        opcode + self.random.below(4) as u8 / 3
    }

    /// A rule behind this one, of its part and with so many items.
    fn target(&mut self, number: usize, part: usize, held: u8) -> Option<u8> {
        let behind = number + 1..=self.layout.places.len();
        let fitting = behind.filter(|&other| self.layout.has(other, part, held));
        let fitting: Vec<usize> = fitting.collect();
        let near = if self.random.below(6) == 0 {
            fitting.len()
        } else {
            2
        };
        let chosen = self.random.below(near.min(fitting.len()));
        fitting.get(chosen).map(|&target| target as u8)
    }

    fn goto(&mut self, number: usize, place: Place) -> Option<Action> {
        let target = self.target(number, place.part, place.held)?;
        Some((self.with_or_without_act(GOTO), target))
    }

    fn push(&mut self, number: usize, place: Place) -> Option<Action> {
        if place.held == MOST_ITEMS {
            return None;
        }
        let target = self.target(number, place.part, place.held + 1)?;
        let opcode = [PUSH_RULE_TO, PUSH_PKT_TO][self.random.below(2)];
        Some((self.with_or_without_act(opcode), target))
    }

    fn pop(&mut self, number: usize, place: Place) -> Option<Action> {
        let held = place.held.checked_sub(1)?;
        let target = self.target(number, place.part, held)?;
        Some((self.with_or_without_act(POP_TO), target))
    }

    /// A Return that fits all Gosubs of its part, with any parameter where
    /// there are none.
    fn come_back(&mut self, place: Place) -> Option<Action> {
        if place.part == 0 {
            return None;
        }
        let fitting = |&parameter: &u8| self.all_come_back(place, parameter);
        let fitting: Vec<u8> = (1..=u8::MAX).filter(fitting).collect();
        let chosen = self.random.below(fitting.len());
        fitting.get(chosen).map(|&parameter| (RETURN, parameter))
    }

    fn all_come_back(&self, place: Place, parameter: u8) -> bool {
        self.gosubs[place.part].iter().all(|&gosub| {
            let caller = self.layout.place(gosub).map_or(0, |place| place.part);
            let comeback = gosub + usize::from(parameter);
            self.layout.has(comeback, caller, place.held)
        })
    }

    fn end(&mut self, place: Place) -> Action {
        let ends = [COUNT, COUNT_PKT, COUNT, COUNT_PKT, IGNORE, NO_MATCH];
        let full = place.held == MOST_ITEMS;
        let ends = if full { &ends[4..] } else { &ends[..] };
        (
            ends[self.random.below(ends.len())],
            self.random.hyper() as u8,
        )
    }

    /// Mask and value are both 0 where the next rule declares otherwise.
    fn test(&mut self, number: usize, place: Place) -> (u8, u32, u32) {
        let next = number + 1;
        let last = next > self.layout.places.len();
        let attribute = self.attribute();
        if last || self.layout.has(next, place.part, place.held) {
            let (mask, value) = self.mask_and_value(attribute);
            (attribute, mask, value)
        } else {
            (attribute, 0, 0)
        }
    }

    fn attribute(&mut self) -> u8 {
        let turn = self.random.below(VALUED.len() + 1);
        VALUED.get(turn).copied().unwrap_or(NULL)
    }

    fn mask_and_value(&mut self, attribute: u8) -> (u32, u32) {
        let masks = [
            u32::MAX,
            0xffff_0000,
            0xff,
            3,
            1 << 31,
            self.random.word(),
            0,
        ];
        let mask = masks[self.random.below(masks.len())];
        if self.random.below(8) < self.plan.passes {
            return (mask, self.packet(0).value(attribute) & mask);
        }
        let turn = self.random.below(self.packets.len());
        let value = match self.random.below(4) {
            0 => self.random.word(),
            1 => self.packet(turn).value(attribute),
            2 => 0,
            _ => self.packet(turn).value(attribute) & mask,
        };
        (mask, value)
    }

    /// One of the packets.
    fn packet(&self, turn: usize) -> Attributes {
        self.packets.get(turn).copied().unwrap_or_default()
    }
}
