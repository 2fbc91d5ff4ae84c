//! The corrector of document 01, with requests One to Seven of document 02, as a
//! plain Rust program.
//!
//! It was written from these documents and not from the Rattle code, so that
//! the two can be compared: a slip would have to be made twice, in two
//! languages and in the same way, to stay unseen.

pub mod bench;
pub mod calendar;
pub mod cases;
pub mod command;
pub mod coverage;
pub mod device;
pub mod generate;
pub mod last;
pub mod lines;
pub mod output;
pub mod reader;
pub mod readout;
pub mod script;
pub mod shrink;
pub mod spoilt;
pub mod table;
pub mod usage;
pub mod walk;
