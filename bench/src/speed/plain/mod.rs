//! Rust with the same algorithm: the crates' code by hand in plain Rust, with the same steps in the same order.

mod bytes;
mod calls;
mod derived;
mod ending;
mod interval;
mod join;
mod lists;
mod past;
mod readings;
mod refusals;
mod rows;
mod rule;
mod scan;
mod shape;
mod state;
mod table;
mod walk;

pub use calls::{ask, close, feed, run, start};
