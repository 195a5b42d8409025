//! The core of an sFlow collector, proved: a reader and a writer of sFlow version 4 datagrams (RFC
//! 3176), a ledger of lost flow samples, a check and an engine for RTFM rule sets (RFC 2722), and
//! listings of captures.
//!
//! Every function answers for every input, and none panics. What is refused is refused with the
//! number and the place that the repository's `docs/REFERENCE.md` gives; the enums of this crate
//! name the numbers.
//!
//! | To do | Here |
//! |---|---|
//! | read a datagram, its samples and their extended data | [`read`], [`Head::samples`], [`FlowSample::extended`], [`Gateway::segments`] |
//! | write one | [`Writer`] with an `append_..` for each kind of sample, and `write_..` for each form |
//! | count lost flow samples | [`Ledger`] |
//! | sort flow samples by rules | [`check`], [`run`], [`Rule`] |
//! | list a capture | [`list`], [`end_lines`] |
//!
//! Each `write_..` function writes a form from its values to the front of a lent buffer and answers
//! the length written; octets behind it stay. It refuses values that are not in the grammar (22),
//! then a buffer that is too short (20), and then leaves the buffer as it was.
//!
//! A datagram is read whole, then its samples one by one:
//!
//! ```
//! use troutgable::{read, Sample};
//!
//! # let mut octets = vec![0, 0, 0, 4, 0, 0, 0, 1, 10, 0, 0, 7, 0, 0, 0, 1, 0, 0, 3, 232, 0, 0, 0, 1];
//! # octets.extend([0, 0, 0, 2, 0, 0, 0, 5, 1, 0, 0, 100, 0, 0, 0, 20, 0, 0, 0, 7, 0, 0, 0, 100]);
//! # octets.extend([0; 24]);
//! let head = read(&octets)?;
//! println!("{} sent {} samples", head.agent, head.sample_count);
//! for sample in head.samples() {
//!     match sample {
//!         Sample::Flow(flow) => println!("a packet from {}: {:?}", flow.words.source_id, flow.packet),
//!         Sample::Counter(counter) => println!("counters of {}: {:?}", counter.words.source_id, counter.counters()),
//!     }
//! }
//! # Ok::<(), troutgable::Refusal>(())
//! ```
#![deny(unsafe_op_in_unsafe_fn)]
#![deny(unsafe_code)]
#![deny(missing_docs)]

mod address;
mod calls;
mod datagram;
mod extended;
mod forms;
mod ledger;
mod listing;
mod octets;
mod packet;
mod refusal;
mod rule;
mod rule_sets;
mod sample;
mod source_id;
mod writer;

pub use datagram::{read, Head, Samples};
pub use extended::{
    read_extended, read_segment, Direction, Extended, ExtendedEntries, Gateway, Router, Segment,
    SegmentKind, Segments, Switch, Url, User,
};
pub use forms::{
    write_counters, write_flow, write_gateway, write_header, write_ipv4, write_ipv6, write_router,
    write_segment, write_switch, write_url, write_user, GatewayForm,
};
pub use ledger::{Ledger, Row, LEDGER_NUMBERS};
pub use listing::{end_lines, list, Listed, State, Stop, END_LINES_ROOM, LINES_ROOM};
pub use octets::Words;
pub use packet::{Ipv4Data, Ipv6Data, PacketData, SampledHeader};
pub use refusal::{EntryRefusal, Reason, Refusal, RuleReason, RuleRefusal, WriteRefusal};
pub use rule::{Attribute, Opcode, Rule};
pub use rule_sets::{check, run, Answer, Key, Outcome};
pub use sample::{read_sample, CounterSample, CounterWords, FlowSample, FlowWords, Sample};
pub use source_id::SourceId;
pub use writer::Writer;

/// The examples of README.md, run with the others.
#[cfg(doctest)]
#[doc = include_str!("../README.md")]
mod readme {}
