//! Situations of the check, written by hand, in which one rule breaks two of
//! the numbers 31 to 39 at once: the lower one is given. Each comes with a set
//! in which the lower fault is mended, and there the higher one is given.
//!
//! Of the 36 pairs three cannot meet in a rule, for they ask for different
//! opcodes: 33 with 36 (Return is an opcode), 33 with 38 (so are PopTo, the
//! pushes and the counts), 36 with 38 (Return neither adds nor drops an item).
//! 33 meets 37, and 39 by a goto target, in Assign and AssignAct: these have a
//! goto flag, though no set may have them. 34 meets 38 by its depth only: a
//! queue with 17 items is not one with 16. A Return has no goto target.

use crate::attributes::NULL;
use crate::check_cases::{ignore, refused, CheckCase};
use crate::rule_sets::{lone_rules, put};
use crate::rules::*;

/// The pairs that cannot meet in one rule.
pub const IMPOSSIBLE: [(u32, u32); 3] = [(33, 36), (33, 38), (36, 38)];

/// A rule that breaks two numbers.
#[derive(Clone, Debug, PartialEq, Eq)]
pub struct PairCase {
    /// The two numbers, the lower one first.
    pub pair: (u32, u32),
    /// The set, and that the lower number is given.
    pub both: CheckCase,
    /// The set without the lower fault, and that the higher number is given.
    pub mended: CheckCase,
}

/// All situations.
pub fn check_pairs() -> Vec<PairCase> {
    let mut pairs: Vec<PairCase> = wrong_marks_and_attributes();
    pairs.extend(wrong_opcodes());
    pairs.extend(too_much_declared());
    pairs.extend(first_rules());
    pairs.extend(main_part_returns());
    pairs.extend(leading_nowhere());
    pairs.extend(queues_and_successors());
    pairs
}

/// The sets of all situations, those without the lower fault too.
pub fn pair_cases() -> Vec<CheckCase> {
    let sets = |case: PairCase| [case.both, case.mended];
    check_pairs().into_iter().flat_map(sets).collect()
}

/// A set of six rules of which one breaks a number in one way. Rules that are
/// not needed for it are lone; 4 is a Gosub where one is needed, 5 is what a
/// goto leads to, and 6 is what a Return comes back to.
#[derive(Clone, Debug)]
struct Way {
    words: String,
    number: u32,
    place: usize,
    rules: Vec<Rule>,
}

/// Lone rules but for these at their numbers.
fn six(others: &[(usize, Rule)]) -> Vec<Rule> {
    let mut rules = lone_rules(6);
    for &(number, rule) in others {
        put(&mut rules, number, rule);
    }
    rules
}

/// The way in which the rule at this place breaks a number, among others.
fn way(number: u32, words: &str, place: usize, rule: Rule, others: &[(usize, Rule)]) -> Way {
    let mut rules = six(others);
    put(&mut rules, place, rule);
    Way {
        words: words.into(),
        number,
        place,
        rules,
    }
}

impl Way {
    /// The rule that breaks the number.
    fn rule(&self) -> Rule {
        self.rules[self.place - 1]
    }

    /// The same with that rule changed.
    fn with(&self, change: impl Fn(&mut Rule)) -> Way {
        let mut changed = self.clone();
        change(&mut changed.rules[self.place - 1]);
        changed
    }

    fn case(&self, number: u32, words: &str) -> CheckCase {
        refused(words, &self.rules, number, self.place)
    }
}

/// The situation that a lower number is broken too; the way itself has the
/// higher one only.
fn pair(lower: u32, lower_words: &str, both: &Way, mended: &Way) -> PairCase {
    let words = format!("{lower}, {lower_words}, with {}", mended.number);
    let words = format!("{words}, {}", mended.words);
    PairCase {
        pair: (lower, mended.number),
        both: both.case(lower, &words),
        mended: mended.case(mended.number, &format!("{words}, mended")),
    }
}

/// The rule with a test that fails, so that the next rule is its successor.
fn tested(rule: Rule) -> Rule {
    rule.with_test(NULL, 1, 0)
}

/// 32 to 34 and 36, by what one field says.
fn fields_at(place: usize) -> Vec<Way> {
    let attribute = |number| ignore().with_test(number, 0, 0);
    let lone = |number, words: &str, rule| way(number, words, place, rule, &[]);
    let mut ways = vec![
        lone(32, "attribute 1", attribute(1)),
        lone(32, "attribute 255", attribute(255)),
        lone(34, "depth 5", ignore().inside(0, 5)),
        lone(34, "held 17", ignore().holding(17)),
        lone(36, "Return", Rule::new(RETURN, 1)),
    ];
    for opcode in [0, ASSIGN, ASSIGN_ACT, 18, 255] {
        let words = format!("opcode {opcode}");
        ways.push(lone(33, &words, Rule::new(opcode, 5)));
    }
    ways
}

/// 35: what the first rule declares.
fn first_declared() -> Vec<Way> {
    let declared = [
        ("home 2", ignore().inside(2, 0)),
        ("depth 1", ignore().inside(0, 1)),
        ("held 1", ignore().holding(1)),
    ];
    let first = |(words, rule)| way(35, words, 1, rule, &[]);
    declared.map(first).into()
}

/// A Gosub to rule 5, at rule 4, and its target.
fn gosub_at_4() -> [(usize, Rule); 2] {
    [
        (4, Rule::new(GOSUB, 5)),
        (5, Rule::new(NO_MATCH, 0).inside(5, 1)),
    ]
}

/// A Return with home 5.
fn back(parameter: u8) -> Rule {
    Rule::new(RETURN, parameter).inside(5, 1)
}

/// The parameters with which a goto at this place leads nowhere.
fn parameters_nowhere(place: usize) -> [(u8, &'static str); 4] {
    [
        (place as u8 - 1, "backward"),
        (0, "rule 0"),
        (place as u8, "its own rule"),
        (7, "behind the last rule"),
    ]
}

/// 37: gotos, and Returns with parameter 0 or that come back behind rule 6.
fn nowhere_at(place: usize) -> Vec<Way> {
    let mut ways = Vec::new();
    for opcode in [GOTO, GOSUB_ACT] {
        for (parameter, words) in parameters_nowhere(place) {
            let words = format!("opcode {opcode}, {words}");
            ways.push(way(37, &words, place, Rule::new(opcode, parameter), &[]));
        }
    }
    ways.push(way(37, "Return 0", place, back(0), &[]));
    ways.push(way(
        37,
        "Return behind the last rule",
        place,
        back(3),
        &gosub_at_4(),
    ));
    ways
}

/// 38: PopTo without items; pushes and counts with 16. PopTo breaks 39 too:
/// no rule declares one item less than none. The pushes' target has 17.
fn queues_at(place: usize) -> Vec<Way> {
    let mut ways = Vec::new();
    for opcode in [POP_TO, POP_TO_ACT] {
        let words = format!("opcode {opcode}, held 0");
        ways.push(way(38, &words, place, Rule::new(opcode, 5), &[]));
    }
    for opcode in [3, 4, 12, 13, 14, 15] {
        let words = format!("opcode {opcode}, held 16");
        let rule = Rule::new(opcode, 5).holding(16);
        ways.push(way(38, &words, place, rule, &[(5, ignore().holding(17))]));
    }
    ways
}

/// 39: the next rule, what a goto leads to, and where a Return comes back.
fn successors_at(place: usize) -> Vec<Way> {
    let held = |held| ignore().holding(held);
    let to = |opcode| Rule::new(opcode, 5);
    let [gosub, target] = gosub_at_4();
    let back_to_6 = [gosub, target, (6, held(1))];
    let ways: [(&str, Rule, &[(usize, Rule)]); 8] = [
        ("next rule", tested(ignore()), &[(place + 1, held(1))]),
        ("next of Return", tested(back(1)), &[(place + 1, held(1))]),
        ("target of Goto", to(GOTO), &[(5, held(1))]),
        ("target of GotoAct", to(GOTO_ACT), &[(5, held(1))]),
        ("target of Gosub", to(GOSUB), &[]),
        ("target of a push", to(PUSH_PKT_TO), &[]),
        ("target of PopTo", to(POP_TO).holding(1), &[(5, held(3))]),
        ("where Return comes back", back(2), &back_to_6),
    ];
    let ways = ways.into_iter();
    ways.map(|(words, rule, others)| way(39, words, place, rule, others))
        .collect()
}

/// The ways that rule 3 can break the numbers, and rule 1 number 35.
fn all_ways() -> Vec<Way> {
    let ways = [
        fields_at(3),
        first_declared(),
        nowhere_at(3),
        queues_at(3),
        successors_at(3),
    ];
    ways.concat()
}

/// 31 and 32 meet every higher number in every way.
fn wrong_marks_and_attributes() -> Vec<PairCase> {
    let mut pairs = Vec::new();
    for way in all_ways() {
        for mark in [[0x52, 0x74], [0x53, 0x75]] {
            pairs.push(pair(31, "mark", &way.with(|rule| rule.mark = mark), &way));
        }
        if way.number > 32 {
            let both = way.with(|rule| rule.attribute = 10);
            pairs.push(pair(32, "attribute 10", &both, &way));
        }
    }
    pairs
}

/// 33 with 34, 35, 37 and 39, as far as no other opcode is asked for.
fn wrong_opcodes() -> Vec<PairCase> {
    let mut pairs = Vec::new();
    for way in all_ways() {
        let opcodes: &[u8] = match way.rule().opcode {
            // Only Assign has a goto flag as Goto does.
            GOTO => &[ASSIGN],
            GOTO_ACT => &[ASSIGN_ACT],
            IGNORE => &[0, ASSIGN, 18, 255],
            _ => &[],
        };
        for &opcode in opcodes.iter().filter(|_| way.number > 33) {
            let words = format!("opcode {opcode}");
            let both = way.with(|rule| rule.opcode = opcode);
            pairs.push(pair(33, &words, &both, &way));
        }
    }
    pairs
}

/// 34 meets every higher number, 38 by the depth only.
fn too_much_declared() -> Vec<PairCase> {
    let mut pairs = Vec::new();
    for way in all_ways().into_iter().filter(|way| way.number > 34) {
        let deep = way.with(|rule| rule.depth = 5);
        pairs.push(pair(34, "depth 5", &deep, &way));
        if way.number != 38 {
            let full = way.with(|rule| rule.held = 17);
            pairs.push(pair(34, "held 17", &full, &way));
        }
    }
    pairs
}

/// 35 meets every higher number in a first rule. Behind other rules the same
/// rule breaks the higher number only.
fn first_rules() -> Vec<PairCase> {
    let ways_at = |place| {
        let returns = way(36, "Return", place, Rule::new(RETURN, 1), &[]);
        let others = [nowhere_at(place), queues_at(place), successors_at(place)];
        [vec![returns], others.concat()].concat()
    };
    let mut pairs = Vec::new();
    for (first, third) in ways_at(1).into_iter().zip(ways_at(3)) {
        for (words, declared) in declarations(&first) {
            let (both, mended) = (first.with(declared), third.with(declared));
            pairs.push(pair(35, words, &both, &mended));
        }
    }
    pairs
}

/// What a first rule may declare so that it breaks 35 and still what it
/// breaks otherwise.
fn declarations(way: &Way) -> Vec<(&'static str, fn(&mut Rule))> {
    let home: (_, fn(&mut Rule)) = ("home 2", |rule| rule.home = 2);
    let depth: (_, fn(&mut Rule)) = ("depth 1", |rule| rule.depth = 1);
    let held: (_, fn(&mut Rule)) = ("held 2", |rule| rule.held = 2);
    let rule = way.rule();
    match way.number {
        // A Return with home 0; a Return with a home, which has to stay.
        36 => vec![depth, held],
        _ if rule.is_return() => vec![("as it is", |_| {}), held],
        // The items decide.
        38 => vec![home, depth],
        _ => vec![home, depth, held],
    }
}

/// 36 with 37 and 39. A Gosub with parameter 0 is aimed at the main part.
fn main_part_returns() -> Vec<PairCase> {
    let nowhere = nowhere_at(3).into_iter();
    let ways = nowhere.chain(successors_at(3));
    let returns = ways.filter(|way| way.rule().is_return());
    let in_main_part = |mended: Way| {
        let mut both = mended.with(|rule| rule.home = 0);
        for gosub in both.rules.iter_mut().filter(|rule| rule.is_gosub()) {
            gosub.parameter = 0;
        }
        pair(36, "Return", &both, &mended)
    };
    returns.map(in_main_part).collect()
}

/// 37 with 38, and with 39 by the next rule, by the rule gone to and by where
/// a Return comes back.
fn leading_nowhere() -> Vec<PairCase> {
    let next = [(4, ignore().holding(1))];
    let mut ways = queues_at(3);
    ways.push(way(
        39,
        "next of Goto",
        3,
        tested(Rule::new(GOTO, 5)),
        &next,
    ));
    let mut pairs = Vec::new();
    for mended in ways.iter().filter(|way| way.rule().has_goto_flag()) {
        for (parameter, words) in parameters_nowhere(3) {
            let both = mended.with(|rule| rule.parameter = parameter);
            pairs.push(pair(37, words, &both, mended));
        }
    }
    pairs.extend(gotos_nowhere());
    pairs.extend(returns_nowhere());
    pairs
}

/// 37 with 39 by the rule gone to: backward, where rule 2 declares what rule
/// 5 does, and the rule itself. Of the gotos only Goto agrees with itself.
fn gotos_nowhere() -> Vec<PairCase> {
    let mut pairs = Vec::new();
    let ways = successors_at(3).into_iter();
    for mended in ways.filter(|way| way.rule().has_goto_flag()) {
        let mut both = mended.with(|rule| rule.parameter = 2);
        put(&mut both.rules, 2, mended.rules[4]);
        pairs.push(pair(37, "backward", &both, &mended));
        if !matches!(mended.rule().opcode, GOTO | GOTO_ACT) {
            let both = mended.with(|rule| rule.parameter = 3);
            pairs.push(pair(37, "its own rule", &both, &mended));
        }
    }
    pairs
}

/// 37 with 39 in Returns: one that comes back to its Gosub, which has another
/// number of items; one that comes back behind the last rule for rule 4 and
/// into the subroutine for rule 2; and one whose next rule declares otherwise.
fn returns_nowhere() -> Vec<PairCase> {
    let gosub = Rule::new(GOSUB, 5);
    let full = [
        (4, gosub.holding(1)),
        (5, ignore().inside(5, 1).holding(1)),
        (6, ignore().holding(1)),
    ];
    let to_gosub = |parameter| way(39, "Return to its Gosub", 3, back(parameter), &full);
    let target = (5, ignore().inside(5, 1));
    let several = |fourth| {
        let others = [(2, gosub), (4, fourth), target];
        way(39, "Return for one of two", 3, back(3), &others)
    };
    let next = [(4, ignore().holding(1))];
    let followed = |parameter| way(39, "next of Return", 3, tested(back(parameter)), &next);
    vec![
        pair(37, "Return 0", &to_gosub(0), &to_gosub(2)),
        pair(37, "Return 3", &several(gosub), &several(ignore())),
        pair(37, "Return 0", &followed(0), &followed(1)),
    ]
}

/// 38 with 39: by the rule gone to, and by the next rule.
fn queues_and_successors() -> Vec<PairCase> {
    let mut pairs = Vec::new();
    for opcode in [POP_TO, POP_TO_ACT] {
        let to = |held| Rule::new(opcode, 5).holding(held);
        let target = |held| way(39, "target", 3, to(held), &[(5, ignore().holding(3))]);
        let other = [(4, ignore().inside(2, 0))];
        let next = |held| way(39, "next rule", 3, tested(to(held)), &other);
        pairs.push(pair(38, "PopTo", &target(0), &target(1)));
        pairs.push(pair(38, "PopTo", &next(0), &next(1)));
    }
    for opcode in [12, 13, 14, 15] {
        let to = |held| Rule::new(opcode, 5).holding(held);
        let target = |held| way(39, "target", 3, to(held), &[]);
        let agreed = |held| [(5, ignore().holding(held + 1))];
        let next = |held| way(39, "next rule", 3, tested(to(held)), &agreed(held));
        pairs.push(pair(38, "a push", &target(16), &target(15)));
        pairs.push(pair(38, "a push", &next(16), &next(15)));
    }
    for opcode in [COUNT, COUNT_PKT] {
        let counts = |held| tested(Rule::new(opcode, 0).holding(held));
        let next = |held| way(39, "next rule", 3, counts(held), &[]);
        pairs.push(pair(38, "a count", &next(16), &next(15)));
    }
    pairs
}
