//! The traces of a seed, each by its number.

use crate::rng::Rng;
use crate::rooms::Strides;
use crate::{caches, exceptions, malformed, mixed, rooms, sweeps, translation};

/// Traces after which the kinds of trace come again.
const ROUND: u64 = 38;

/// The kinds of traces in which registers, the table, exceptions and the clock go together.
pub const MIXED: [&str; 2] = ["mixed sessions", "stride pairs"];

pub struct Trace {
    pub name: String,
    pub kind: &'static str,
    pub text: Vec<u8>,
    /// How a stride pair's second session goes.
    pub strides: Option<Strides>,
}

impl Trace {
    /// The trace of a number. In a `ROUND` two are sweeps and four have a plain fault, until all of
    /// these are done.
    pub fn new(seed: u64, number: u64) -> Self {
        let mut rng = Rng::new(seed, number);
        let operations = 400 + rng.index(200);
        let (round, place) = (number / ROUND, number % ROUND);
        let name = format!("{seed:x}-{number}.trace");
        if place >= 30 {
            let (text, strides) = rooms::pair(rng, operations);
            return Self { name, kind: MIXED[1], text, strides: Some(strides) };
        }
        let once = match place {
            0 | 1 => sweeps::sweep(2 * round + place).map(|text| ("sweeps", text)),
            2..=5 => malformed::plain_fault(4 * round + place - 2).map(|text| ("faults", text)),
            _ => None,
        };
        let (kind, text) = once.unwrap_or_else(|| match place {
            2..=5 => ("malformed", malformed::malformed(rng, round)),
            6 => ("cut advances", mixed::cut_advances(rng, operations)),
            7 | 8 => ("registers", mixed::session(rng, operations)),
            9 | 10 => ("wild tables", translation::wild(rng, operations)),
            11 | 12 => ("tame tables", translation::tame(rng, operations)),
            13..=16 => ("exceptions", exceptions::session(rng, operations)),
            17..=23 => ("caches", caches::session(rng, operations)),
            _ => (MIXED[0], rooms::session(rng, operations)),
        });
        Self { name, kind, text, strides: None }
    }
}
