//! The Rust original, unchanged: five files of `rustyn64-cpu`, compiled where they stand.
//!
//! `build.rs` finds them; what is used of the rest of that project is cut out by it, into
//! [`pipeline`], or stands in [`decode`].

pub mod decode;
pub mod pipeline;

include!(concat!(env!("OUT_DIR"), "/original.rs"));
