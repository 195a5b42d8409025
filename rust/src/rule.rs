//! Rules as values.

/// Names with numbers of one octet.
macro_rules! numbered {
    ($(#[$about:meta])* $name:ident { $($variant:ident = $number:literal, $text:literal;)* }) => {
        $(#[$about])*
        #[derive(Clone, Copy, Debug, PartialEq, Eq, PartialOrd, Ord, Hash)]
        pub enum $name {
            $(#[doc = $text] $variant = $number,)*
        }

        impl $name {
            /// Every one of them.
            pub const ALL: &'static [$name] = &[$($name::$variant,)*];

            /// Its number.
            pub fn number(self) -> u8 {
                self as u8
            }
        }
    };
}

numbered! {
    /// Attributes of a flow sample, by their numbers in RFC 2722.
    Attribute {
        Null = 0, "nothing: a test of it always succeeds";
        SourceInterface = 4, "the sample's input";
        SourcePeerType = 8, "1 for IPv4, 2 for IPv6, else 0";
        SourcePeerAddress = 9, "the IPv4 source address; 0 for IPv6";
        SourceTransType = 11, "the IP protocol";
        SourceTransAddress = 12, "the source port";
        DestInterface = 14, "the sample's output";
        DestPeerType = 18, "1 for IPv4, 2 for IPv6, else 0";
        DestPeerAddress = 19, "the IPv4 destination address; 0 for IPv6";
        DestTransType = 21, "the IP protocol";
        DestTransAddress = 22, "the destination port";
    }
}

impl Attribute {
    pub(crate) fn of(number: usize) -> Option<Attribute> {
        Attribute::ALL
            .iter()
            .copied()
            .find(|attribute| usize::from(attribute.number()) == number)
    }
}

numbered! {
    /// What a rule does when its test succeeds. Those with Act leave the test of the next rule out.
    Opcode {
        Ignore = 1, "ends: the packet is not of interest";
        NoMatch = 2, "ends as if no rule had matched";
        Count = 3, "queues attribute, mask and the rule's value, and ends: the packet is counted";
        CountPkt = 4, "queues attribute, mask and the packet's masked value, and ends: the packet is counted";
        Return = 5, "goes back behind the newest open Gosub, so many rules as the parameter says; no test there";
        Gosub = 6, "opens a call and goes to the parameter's rule";
        GosubAct = 7, "the same without a test there";
        Goto = 10, "goes to the parameter's rule";
        GotoAct = 11, "the same without a test there";
        PushRuleTo = 12, "queues attribute, mask and the rule's value, and goes to the parameter's rule";
        PushRuleToAct = 13, "the same without a test there";
        PushPktTo = 14, "queues attribute, mask and the packet's masked value, and goes to the parameter's rule";
        PushPktToAct = 15, "the same without a test there";
        PopTo = 16, "drops the newest item and goes to the parameter's rule";
        PopToAct = 17, "the same without a test there";
    }
}

/// A rule. The default one tests Null, which succeeds, and ignores the packet.
///
/// ```
/// use troutgable::{Attribute, Opcode, Rule};
///
/// let rule = Rule { attribute: Attribute::SourceTransType, opcode: Opcode::Goto, mask: 255, value: 6, parameter: 2, ..Rule::default() };
/// assert_eq!(rule.octets(), [0x52, 0x75, 11, 10, 0, 0, 0, 255, 0, 0, 0, 6, 2, 0, 0, 0]);
/// ```
#[derive(Clone, Copy, Debug, PartialEq, Eq)]
pub struct Rule {
    /// the attribute that is tested or queued
    pub attribute: Attribute,
    /// what the rule does
    pub opcode: Opcode,
    /// the attribute is ANDed with it
    pub mask: u32,
    /// and compared with it
    pub value: u32,
    /// the rule that a goto names; how far behind its Gosub a Return goes
    pub parameter: u8,
    /// 0 in the main part, else the number of its subroutine's first rule
    pub home: u8,
    /// how many calls are open on arrival
    pub depth: u8,
    /// how many items are queued on arrival
    pub held: u8,
}

impl Default for Rule {
    fn default() -> Rule {
        Rule {
            attribute: Attribute::Null,
            opcode: Opcode::Ignore,
            mask: 0,
            value: 0,
            parameter: 0,
            home: 0,
            depth: 0,
            held: 0,
        }
    }
}

impl Rule {
    /// The rule as a record of a rule set.
    pub fn octets(&self) -> [u8; 16] {
        let [m0, m1, m2, m3] = self.mask.to_be_bytes();
        let [v0, v1, v2, v3] = self.value.to_be_bytes();
        let (attribute, opcode) = (self.attribute.number(), self.opcode.number());
        [
            0x52,
            0x75,
            attribute,
            opcode,
            m0,
            m1,
            m2,
            m3,
            v0,
            v1,
            v2,
            v3,
            self.parameter,
            self.home,
            self.depth,
            self.held,
        ]
    }
}
