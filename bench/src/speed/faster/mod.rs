//! The same rewriting with faster steps: other files for the terms of a row, joining, and putting in; the rest is
//! that of `plain`.

#[path = "../plain/bytes.rs"]
mod bytes;
#[path = "../plain/calls.rs"]
mod calls;
#[path = "../plain/derived.rs"]
mod derived;
#[path = "../plain/ending.rs"]
mod ending;
#[path = "../plain/interval.rs"]
mod interval;
mod join;
#[path = "../plain/lists.rs"]
mod lists;
#[path = "../plain/past.rs"]
mod past;
#[path = "../plain/readings.rs"]
mod readings;
#[path = "../plain/refusals.rs"]
mod refusals;
#[path = "../plain/rows.rs"]
mod rows;
#[path = "../plain/rule.rs"]
mod rule;
mod scan;
#[path = "../plain/shape.rs"]
mod shape;
#[path = "../plain/state.rs"]
mod state;
mod table;
#[path = "../plain/walk.rs"]
mod walk;

pub use calls::{ask, close, feed, run, start};
