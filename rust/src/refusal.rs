//! Refusals: each a number and what it means.
use std::error::Error;
use std::fmt;

/// An enum of refusals, each with its number and its meaning.
macro_rules! refusals {
    ($(#[$about:meta])* $name:ident { $($variant:ident = $number:literal, $text:literal;)* }) => {
        $(#[$about])*
        #[derive(Clone, Copy, Debug, PartialEq, Eq, PartialOrd, Ord, Hash)]
        pub enum $name {
            $(#[doc = $text] $variant,)*
            /// a number that this crate has no name for; the library that the documents describe
            /// answers none
            Other(u32),
        }

        impl $name {
            pub(crate) fn of(number: u32) -> $name {
                match number {
                    $($number => $name::$variant,)*
                    other => $name::Other(other),
                }
            }

            /// The refusal's number.
            pub fn number(self) -> u32 {
                match self {
                    $($name::$variant => $number,)*
                    $name::Other(number) => number,
                }
            }

            /// What it means.
            pub fn text(self) -> &'static str {
                match self {
                    $($name::$variant => $text,)*
                    $name::Other(_) => "a number without a name",
                }
            }
        }

        /// The number and what it means.
        impl fmt::Display for $name {
            fn fmt(&self, f: &mut fmt::Formatter<'_>) -> fmt::Result {
                write!(f, "refused {}: {}", self.number(), self.text())
            }
        }

        impl Error for $name {}
    };
}

refusals! {
    /// Why octets are not what was read for.
    Reason {
        CutItem = 1, "fewer octets are left than the item has";
        Version = 2, "the version is not 4";
        AddressType = 3, "an address type is not 1 or 2";
        SampleType = 4, "a sample type is not 1 or 2";
        PacketDataType = 5, "a packet data type is not 1 to 3";
        HeaderProtocol = 6, "a header protocol is not 1 to 13";
        HeaderLength = 7, "a header is longer than 256 octets";
        ExtendedType = 8, "an extended data type is not 1 to 5";
        SegmentType = 9, "a path segment type is not 1 or 2";
        UrlDirection = 10, "a URL direction is not 1 or 2";
        CountersVersion = 11, "a counters version is not 1 to 7";
        Padding = 12, "a padding octet is not zero";
        TrailingOctets = 13, "octets follow the last sample";
        TooLong = 14, "longer than 65,507 octets";
    }
}

refusals! {
    /// Why nothing was written. The buffer is as it was.
    WriteRefusal {
        NoRoom = 20, "the new end would pass the limit, or the buffer is too short";
        BadLimit = 21, "the limit is outside 36 to 65,507, or above the buffer's length";
        BadValue = 22, "a value is not in the grammar, or the octets are not exactly one sample";
        BadDatagram = 23, "the datagram so far does not pass the reader, or is longer than the limit";
    }
}

refusals! {
    /// Why a rule set is not accepted or was not run.
    RuleReason {
        NotOneFlowSample = 18, "the octets are not exactly one flow sample";
        SetLength = 30, "length 0, not a multiple of 16, or more than 255 rules";
        Mark = 31, "the mark is not 52 75";
        Attribute = 32, "no such attribute";
        Opcode = 33, "the opcode is not 1 to 17, or is 8 or 9";
        DepthOrHeld = 34, "depth over 4, or held over 16";
        FirstRule = 35, "rule 1 with home, depth or held not 0";
        ReturnHome = 36, "Return with home 0";
        Target = 37, "a goto not ahead or to no rule, or a Return with parameter 0 or back to no rule";
        Queue = 38, "PopTo with held 0, or a push, Count or CountPkt with held 16";
        Successor = 39, "a successor declares another home, depth or held than it has on arrival";
    }
}

refusals! {
    /// Why a flow sample was not entered in the ledger. No row has changed.
    EntryRefusal {
        TableFull = 40, "all 64 rows belong to other sources";
        Repeated = 41, "the sequence number is the one kept";
        Backward = 42, "the sequence number went back";
    }
}

/// A refusal of the reader: why, and the offset of the first bad item.
#[derive(Clone, Copy, Debug, PartialEq, Eq, PartialOrd, Ord, Hash)]
pub struct Refusal {
    /// why
    pub reason: Reason,
    /// the offset in the octets that were given
    pub place: usize,
}

impl Refusal {
    pub(crate) fn of(number: u32, place: u64) -> Refusal {
        Refusal {
            reason: Reason::of(number),
            place: place as usize,
        }
    }

    /// The refusal's number, 1 to 14.
    pub fn number(self) -> u32 {
        self.reason.number()
    }
}

/// The number, the place and what it means.
impl fmt::Display for Refusal {
    fn fmt(&self, f: &mut fmt::Formatter<'_>) -> fmt::Result {
        write!(
            f,
            "refused {} at {}: {}",
            self.number(),
            self.place,
            self.reason.text()
        )
    }
}

impl Error for Refusal {}

/// A refusal of the check or the engine: why, and the rule that breaks a rule of the check.
#[derive(Clone, Copy, Debug, PartialEq, Eq, PartialOrd, Ord, Hash)]
pub struct RuleRefusal {
    /// why
    pub reason: RuleReason,
    /// the number of the rule named, from 1; 0 where none is
    pub rule: u64,
}

impl RuleRefusal {
    pub(crate) fn of(number: u32, rule: u64) -> RuleRefusal {
        RuleRefusal {
            reason: RuleReason::of(number),
            rule,
        }
    }

    /// The refusal's number, 18 or 30 to 39.
    pub fn number(self) -> u32 {
        self.reason.number()
    }
}

/// The number, the rule and what it means.
impl fmt::Display for RuleRefusal {
    fn fmt(&self, f: &mut fmt::Formatter<'_>) -> fmt::Result {
        write!(
            f,
            "refused {} at rule {}: {}",
            self.number(),
            self.rule,
            self.reason.text()
        )
    }
}

impl Error for RuleRefusal {}
