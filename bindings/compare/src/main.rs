//! Plays random operations on the Rust original and on the binding, side by side in one program, and
//! reports the first difference. The traces are those of `oracle/compare`.

mod difference;
mod sides;
mod tally;
mod words;

// What makes the traces, from where it stands; some of it is for the comparison there alone.
#[allow(dead_code)]
#[path = "../../../oracle/src/bin/compare/addresses.rs"]
mod addresses;
#[allow(dead_code)]
#[path = "../../../oracle/src/bin/compare/aim.rs"]
mod aim;
#[allow(dead_code)]
#[path = "../../../oracle/src/bin/compare/cache_sweeps.rs"]
mod cache_sweeps;
#[allow(dead_code)]
#[path = "../../../oracle/src/bin/compare/caches.rs"]
mod caches;
#[allow(dead_code)]
#[path = "../../../oracle/src/bin/compare/draft.rs"]
mod draft;
#[allow(dead_code)]
#[path = "../../../oracle/src/bin/compare/exception_sweeps.rs"]
mod exception_sweeps;
#[allow(dead_code)]
#[path = "../../../oracle/src/bin/compare/exceptions.rs"]
mod exceptions;
#[allow(dead_code)]
#[path = "../../../oracle/src/bin/compare/malformed.rs"]
mod malformed;
#[allow(dead_code)]
#[path = "../../../oracle/src/bin/compare/mixed.rs"]
mod mixed;
#[allow(dead_code)]
#[path = "../../../oracle/src/bin/compare/rng.rs"]
mod rng;
#[allow(dead_code)]
#[path = "../../../oracle/src/bin/compare/rooms.rs"]
mod rooms;
#[allow(dead_code)]
#[path = "../../../oracle/src/bin/compare/sweeps.rs"]
mod sweeps;
#[allow(dead_code)]
#[path = "../../../oracle/src/bin/compare/trace.rs"]
mod trace;
#[allow(dead_code)]
#[path = "../../../oracle/src/bin/compare/translation.rs"]
mod translation;

use std::env;
use std::process::ExitCode;

use difference::Difference;
use oracle::parse::lines;
use sides::{End, Sides};
use tally::Tally;
use trace::Trace;

const USAGE: &str = "usage: compare-binding [--seed HEX] [--operations N]";

struct Options {
    seed: u64,
    operations: u64,
}

impl Options {
    /// None where the words are not as [`USAGE`] has them.
    fn read(mut words: impl Iterator<Item = String>) -> Option<Self> {
        let mut options = Self { seed: 1, operations: 2_000_000 };
        while let Some(word) = words.next() {
            let value = words.next()?;
            match word.as_str() {
                "--seed" => options.seed = u64::from_str_radix(&value, 16).ok()?,
                "--operations" => options.operations = value.parse().ok()?,
                _ => return None,
            }
        }
        Some(options)
    }
}

fn main() -> ExitCode {
    let Some(options) = Options::read(env::args().skip(1)) else {
        eprintln!("{USAGE}");
        return ExitCode::from(2);
    };
    let mut tally = Tally::default();
    let mut number = 0;
    while tally.total() < options.operations {
        let trace = Trace::new(options.seed, number);
        if let Err(difference) = play(&trace, &mut tally) {
            println!("{}", difference.told(&trace));
            return ExitCode::FAILURE;
        }
        number += 1;
    }
    println!("seed {:x}", options.seed);
    tally.print();
    println!("{number} traces, {} operations", tally.total());
    println!("no difference");
    ExitCode::SUCCESS
}

/// A trace on both sides, from a fresh start to its end, or to a line that is no operation.
fn play(trace: &Trace, tally: &mut Tally) -> Result<(), Difference> {
    let mut sides = Sides::new();
    for (at, line) in lines(&trace.text).enumerate() {
        match sides.play(line) {
            Ok(Some(name)) => tally.add(name, trace.kind),
            Ok(None) => {}
            Err(End::Fault) => break,
            Err(End::Differ(what)) => return Err(Difference::at(at, line, what)),
        }
    }
    let last = lines(&trace.text).count();
    sides.compare_all().map_err(|what| Difference::at(last, b"the end", what))
}
