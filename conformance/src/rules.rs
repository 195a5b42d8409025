//! Rule records: 16 octets each, numbered from 1 in their set.

/// The octets of a rule record.
pub const RULE_OCTETS: usize = 16;

/// The most rules of a set.
pub const MOST_RULES: usize = 255;

/// The first two octets of a record.
pub const MARK: [u8; 2] = [0x52, 0x75];

// Opcodes, as in RFC 2722, section 4.4.

/// Ends the run: the packet is not counted.
pub const IGNORE: u8 = 1;
/// Ends the run: no match.
pub const NO_MATCH: u8 = 2;
/// Ends the run: counts the packet, and queues as PushRuleTo.
pub const COUNT: u8 = 3;
/// Ends the run: counts the packet, and queues as PushPktTo.
pub const COUNT_PKT: u8 = 4;
/// Comes back from a subroutine, past its Gosub by the parameter.
pub const RETURN: u8 = 5;
/// Calls a subroutine.
pub const GOSUB: u8 = 6;
/// Calls a subroutine whose first rule is not tested.
pub const GOSUB_ACT: u8 = 7;
/// Assigns a variable; no set may have it.
pub const ASSIGN: u8 = 8;
/// The same without a test of the next rule; no set may have it.
pub const ASSIGN_ACT: u8 = 9;
/// Goes to a rule.
pub const GOTO: u8 = 10;
/// Goes to a rule that is not tested.
pub const GOTO_ACT: u8 = 11;
/// Queues the rule's value and goes to a rule.
pub const PUSH_RULE_TO: u8 = 12;
/// The same, and the rule is not tested.
pub const PUSH_RULE_TO_ACT: u8 = 13;
/// Queues the packet's masked value and goes to a rule.
pub const PUSH_PKT_TO: u8 = 14;
/// The same, and the rule is not tested.
pub const PUSH_PKT_TO_ACT: u8 = 15;
/// Drops the newest item and goes to a rule.
pub const POP_TO: u8 = 16;
/// The same, and the rule is not tested.
pub const POP_TO_ACT: u8 = 17;

/// A rule as its record says it, right or wrong.
#[derive(Clone, Copy, Debug, PartialEq, Eq)]
pub struct Rule {
    /// 52 75, if it is right.
    pub mark: [u8; 2],
    /// The number of the attribute that is tested.
    pub attribute: u8,
    /// What is done if the test succeeds.
    pub opcode: u8,
    /// The attribute is ANDed with it.
    pub mask: u32,
    /// The masked attribute is compared with it.
    pub value: u32,
    /// The rule gone to; of a Return, how far past its Gosub.
    pub parameter: u8,
    /// 0 in the main part, otherwise the first rule of its subroutine.
    pub home: u8,
    /// The open calls on arrival.
    pub depth: u8,
    /// The queued items on arrival.
    pub held: u8,
}

impl Rule {
    /// Null & 0 = 0 with this action, in the main part with no items.
    pub fn new(opcode: u8, parameter: u8) -> Rule {
        Rule {
            mark: MARK,
            attribute: 0,
            opcode,
            mask: 0,
            value: 0,
            parameter,
            home: 0,
            depth: 0,
            held: 0,
        }
    }

    /// The rule with this test.
    pub fn with_test(self, attribute: u8, mask: u32, value: u32) -> Rule {
        Rule {
            attribute,
            mask,
            value,
            ..self
        }
    }

    /// The rule with this home and depth.
    pub fn inside(self, home: u8, depth: u8) -> Rule {
        Rule {
            home,
            depth,
            ..self
        }
    }

    /// The rule with so many items on arrival.
    pub fn holding(self, held: u8) -> Rule {
        Rule { held, ..self }
    }

    /// The rule that a record tells.
    pub fn from_octets(octets: &[u8; RULE_OCTETS]) -> Rule {
        let [m, n, attribute, opcode, a, b, c, d, e, f, g, h, parameter, home, depth, held] =
            *octets;
        Rule {
            mark: [m, n],
            attribute,
            opcode,
            mask: u32::from_be_bytes([a, b, c, d]),
            value: u32::from_be_bytes([e, f, g, h]),
            parameter,
            home,
            depth,
            held,
        }
    }

    /// The rule's record.
    pub fn to_octets(self) -> [u8; RULE_OCTETS] {
        let [m, n] = self.mark;
        let [a, b, c, d] = self.mask.to_be_bytes();
        let [e, f, g, h] = self.value.to_be_bytes();
        let Rule {
            attribute,
            opcode,
            parameter,
            home,
            depth,
            held,
            ..
        } = self;
        [
            m, n, attribute, opcode, a, b, c, d, e, f, g, h, parameter, home, depth, held,
        ]
    }

    /// Whether the opcode has its goto flag set.
    pub fn has_goto_flag(&self) -> bool {
        (GOSUB..=POP_TO_ACT).contains(&self.opcode)
    }

    /// Whether the opcode is Gosub or GosubAct.
    pub fn is_gosub(&self) -> bool {
        matches!(self.opcode, GOSUB | GOSUB_ACT)
    }

    /// Whether the opcode queues an item and goes on.
    pub fn is_push(&self) -> bool {
        (PUSH_RULE_TO..=PUSH_PKT_TO_ACT).contains(&self.opcode)
    }

    /// Whether the opcode is PopTo or PopToAct.
    pub fn is_pop(&self) -> bool {
        matches!(self.opcode, POP_TO | POP_TO_ACT)
    }

    /// Whether the opcode is Return.
    pub fn is_return(&self) -> bool {
        self.opcode == RETURN
    }

    /// Whether the opcode is Count or CountPkt.
    pub fn is_count(&self) -> bool {
        matches!(self.opcode, COUNT | COUNT_PKT)
    }
}

/// The rule with this number, if there is one.
pub fn rule_at(rules: &[Rule], number: usize) -> Option<&Rule> {
    rules.get(number.checked_sub(1)?)
}

/// The records in the octets; a cut one at the end is left out.
pub fn rules_of(octets: &[u8]) -> Vec<Rule> {
    let (records, _) = octets.as_chunks();
    records.iter().map(Rule::from_octets).collect()
}

/// The records of the rules.
pub fn octets_of_rules(rules: &[Rule]) -> Vec<u8> {
    rules.iter().flat_map(|rule| rule.to_octets()).collect()
}
