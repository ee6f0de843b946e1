//! An ordered map from `i64` to `i64` with long ranges over a snapshot, proved: a safe wrapper over
//! the static library of Lopresnik.
//!
//! - [`Map`] owns the memory and has a method for every call.
//! - [`List`] writes calls to bytes; [`Map::run`] and [`Map::run_list`] make them all.
//! - [`Map::range`] and [`Shared`] iterate over a range and close it when the iterator is dropped.
//! - [`Refusal`] says why a call was refused. A refused call changes nothing.
//!
//! There are two ways to hold a range open. [`Map::open_range`] answers a [`Version`] and borrows
//! nothing, so that any other call can be made between [`Map::step_range`] and
//! [`Map::close_range`]. An iterator closes its range by itself: [`Map::range`] borrows the map until
//! then; [`Shared`] puts the map in a `RefCell`, so that several ranges can be open while others
//! change it. None of it locks: a map is for one thread at a time.
//!
//! What is proved is the library, for any contents of the tables (docs/STATEMENTS.md); this wrapper
//! is not. It is small, and what it must keep is said at each `unsafe`.

#![deny(missing_docs, missing_debug_implementations)]

mod archive;
mod coins;
mod list;
mod map;
mod range;
mod refusal;
mod tables;

pub use list::{Answered, Answers, End, List, Ran, ANSWER_CELLS, CALL_PLACES};
pub use map::{HandedOver, Map, Node, Stepped, Swept, Tally, Version};
pub use range::{Range, Shared, SharedRange};
pub use refusal::Refusal;
pub use tables::{Coordinator, Tables, Ticket, ROW, SIZES, TICKETS};
