//! An independent second program for `schedule`, written from document 01 alone.
//!
//! `map` is the map with its ranges in plain lists, `number`, `transaction` and `reader` are the
//! schedule file, `program` turns a file into lines. `generator` writes files to try the program
//! on, and `coverage` tells which cases a set of files reaches. `tables` is a check of its own
//! whether raw tables are sound, and `verdicts` holds it against the verdicts of the library.

pub mod coverage;
pub mod generator;
pub mod map;
pub mod number;
pub mod program;
pub mod random;
pub mod reader;
pub mod tables;
pub mod transaction;
pub mod verdicts;
