//! Calls of every function, with values that all differ, compared with the answers that the forms
//! and rules demand.

#[path = "calls/any_octets.rs"]
mod any_octets;
#[path = "calls/appending.rs"]
mod appending;
#[path = "calls/forms.rs"]
mod forms;
#[path = "calls/ledger.rs"]
mod ledger;
#[path = "calls/listing.rs"]
mod listing;
#[path = "calls/reading.rs"]
mod reading;
#[path = "calls/rewriting.rs"]
mod rewriting;
#[path = "calls/rule_sets.rs"]
mod rule_sets;
#[path = "calls/writing.rs"]
mod writing;
