//! All tests over the public functions, in one program.

mod all_cases;
mod attributes;
mod captures;
mod cases;
mod check;
mod crowded_inputs;
mod dump_text;
mod engine;
mod inputs;
mod ledger;
mod ledger_vectors;
mod machine;
mod programs;
mod round_trip;
mod rule_vectors;
mod vector_set;
mod writer;
