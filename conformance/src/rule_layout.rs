//! Layouts of random rule sets: for each rule the part it belongs to, the
//! items it holds on arrival, and the subroutine that it may call.

use crate::check::{MOST_CALLS, MOST_ITEMS};
use crate::random::Random;

/// What a layout is to be like.
#[derive(Clone, Copy, Debug)]
pub struct Plan {
    /// The rules of the set.
    pub rules: usize,
    /// Of 16 blocks, those that are calls.
    pub calls: usize,
    /// Of 16 blocks, those after which the items change.
    pub changes: usize,
    /// Of 8 changes, those that add an item.
    pub adds: usize,
    /// Of 16 actions, those that end where another is possible.
    pub ends: usize,
    /// Of 8 tests, those that succeed for the first packet.
    pub passes: usize,
}

/// The main part or a subroutine.
#[derive(Clone, Debug)]
pub struct Part {
    /// The number of its first rule; 0 before it has one.
    pub first: usize,
    /// The open calls of its rules.
    pub depth: u8,
    /// The items held by its first rule.
    entry: u8,
    /// The items held by the rules behind each of its Gosubs.
    shape: Vec<u8>,
    /// The items held by its next rule.
    held: u8,
}

/// The place of a rule.
#[derive(Clone, Copy, Debug, PartialEq, Eq)]
pub struct Place {
    /// The part that the rule belongs to.
    pub part: usize,
    /// The items that the rule holds on arrival.
    pub held: u8,
    /// The subroutine that its Gosub is aimed at.
    pub calls: Option<usize>,
}

/// Part 0 is the main part; place 0 is that of rule 1.
pub struct Layout {
    /// The main part, then the subroutines.
    pub parts: Vec<Part>,
    /// The places of the rules in their order.
    pub places: Vec<Place>,
}

impl Layout {
    /// The place of the rule with this number, if there is one.
    pub fn place(&self, number: usize) -> Option<Place> {
        self.places.get(number.checked_sub(1)?).copied()
    }

    /// What the rules of a part name as their home.
    pub fn home(&self, part: usize) -> u8 {
        if part == 0 {
            0
        } else {
            self.parts[part].first as u8
        }
    }

    /// Whether the rule with this number is of that part with so many items.
    pub fn has(&self, number: usize, part: usize, held: u8) -> bool {
        let same = |place: Place| place.part == part && place.held == held;
        self.place(number).is_some_and(same)
    }
}

/// A random layout.
pub fn lay_out(random: &mut Random, plan: &Plan) -> Layout {
    let mut builder = Builder {
        random,
        plan: *plan,
        layout: Layout {
            parts: vec![part(0, 0, Vec::new())],
            places: Vec::new(),
        },
        current: 0,
    };
    builder.begin(0);
    while builder.layout.places.len() < plan.rules {
        builder.block();
    }
    let mut layout = builder.layout;
    layout.places.truncate(plan.rules);
    layout
}

fn part(depth: u8, entry: u8, shape: Vec<u8>) -> Part {
    Part {
        first: 0,
        depth,
        entry,
        shape,
        held: entry,
    }
}

struct Builder<'a> {
    random: &'a mut Random,
    plan: Plan,
    layout: Layout,
    /// The part that the next rules belong to.
    current: usize,
}

impl Builder<'_> {
    /// Begins a part with its first rule, which may be a call.
    fn begin(&mut self, part: usize) {
        self.current = part;
        self.layout.parts[part].first = self.layout.places.len() + 1;
        if self.random.below(8) < self.plan.calls {
            self.call();
        } else {
            self.add(self.held(), None);
        }
    }

    /// Adds a rule of the current part.
    fn add(&mut self, held: u8, calls: Option<usize>) {
        self.layout.parts[self.current].held = held;
        self.layout.places.push(Place {
            part: self.current,
            held,
            calls,
        });
    }

    /// Adds rules: a call, a change of items, another part, or a few more.
    fn block(&mut self) {
        let kind = self.random.below(16);
        let calls = self.plan.calls;
        let changes = calls + self.plan.changes;
        let begins = changes + 2 + calls / 3;
        if kind < calls {
            self.call();
        } else if kind < changes {
            self.change_items();
        } else if kind < begins {
            self.begin_waiting();
        } else if kind == begins {
            self.turn_back();
        }
        let held = self.held();
        for _ in 0..self.random.below(3) {
            self.add(held, None);
        }
    }

    /// The items held in the current part.
    fn held(&self) -> u8 {
        self.layout.parts[self.current].held
    }

    fn change_items(&mut self) {
        let held = self.held();
        let adds = self.random.below(8) < self.plan.adds;
        let changed = if adds {
            held + 1
        } else {
            held.saturating_sub(1)
        };
        self.add(changed.min(MOST_ITEMS), None);
    }

    /// The parts of which this is true, by their places in the list.
    fn parts(&self, which: impl Fn(&Part) -> bool) -> Vec<usize> {
        let all = self.layout.parts.iter().enumerate();
        all.filter(|(_, part)| which(part))
            .map(|(at, _)| at)
            .collect()
    }

    /// One of the numbers, if there are any.
    fn one_of(&mut self, numbers: &[usize]) -> Option<usize> {
        numbers.get(self.random.below(numbers.len())).copied()
    }

    /// Begins a subroutine that is called but has no rules yet: the one called
    /// last, or any.
    fn begin_waiting(&mut self) {
        let waiting = self.parts(|part| part.first == 0);
        let chosen = match self.random.below(2) {
            0 => waiting.last().copied(),
            _ => self.one_of(&waiting),
        };
        if let Some(part) = chosen {
            self.begin(part);
        }
    }

    /// Goes on with a part that has rules already.
    fn turn_back(&mut self) {
        let begun = self.parts(|part| part.first != 0);
        self.current = self.one_of(&begun).unwrap_or(0);
    }

    /// Adds a Gosub and the rules to which its subroutine may come back. At
    /// the greatest depth there are no calls.
    fn call(&mut self) {
        let (held, depth) = (self.held(), self.layout.parts[self.current].depth);
        if depth == MOST_CALLS {
            self.add(held, None);
            return;
        }
        let callee = self.callee(depth + 1, held);
        self.add(held, Some(callee));
        for held in self.layout.parts[callee].shape.clone() {
            self.add(held, None);
        }
    }

    /// A subroutine of this depth that begins with so many items and has no
    /// rules yet, mostly one that is called elsewhere too.
    fn callee(&mut self, depth: u8, entry: u8) -> usize {
        let fits = |part: &Part| part.first == 0 && part.depth == depth && part.entry == entry;
        let waiting = self.parts(fits);
        if self.random.below(4) > 0 {
            if let Some(part) = self.one_of(&waiting) {
                return part;
            }
        }
        let shape = self.shape(entry);
        self.layout.parts.push(part(depth, entry, shape));
        self.layout.parts.len() - 1
    }

    fn shape(&mut self, entry: u8) -> Vec<u8> {
        let count = 1 + self.random.below(3);
        let held = |random: &mut Random| match random.below(5) {
            0 => entry.saturating_sub(1),
            1 => (entry + 1).min(MOST_ITEMS),
            2 => (entry + 2).min(MOST_ITEMS),
            _ => entry,
        };
        (0..count).map(|_| held(self.random)).collect()
    }
}
