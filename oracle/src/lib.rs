//! Plays a trace on the Rust original: the answers that the port is held to.
//!
//! A trace line is read by [`parse`], named in the table of [`operations`] (and its exception in
//! that of [`exceptions`]), run on the original's records in [`machine`] (the caches through
//! [`caches`], the entry that answered by [`entries`], the access by [`access`]), and answered in the
//! words of [`answers`]; [`play`] goes through a whole trace.

mod access;
mod answers;
mod caches;
mod entries;
pub mod exceptions;
mod fields;
pub mod machine;
pub mod operations;
pub mod parse;
pub mod play;
