//! Plays random traces on the original and on `replay`, and reports the first difference.

mod addresses;
mod aim;
mod cache_sweeps;
mod caches;
mod comparison;
mod draft;
mod exception_sweeps;
mod exceptions;
mod judge;
mod malformed;
mod mixed;
mod options;
mod rng;
mod rooms;
mod sweeps;
mod trace;
mod translation;

use std::env;
use std::process::ExitCode;

use comparison::Comparison;
use options::{Options, USAGE};

fn main() -> ExitCode {
    let Some(options) = Options::read(env::args_os().skip(1)) else {
        eprintln!("{USAGE}");
        return ExitCode::from(2);
    };
    let mut comparison = Comparison::new(options);
    match comparison.run() {
        Ok(difference) => {
            comparison.report();
            println!("{}", comparison.summary());
            println!("{}", difference.as_deref().unwrap_or("no difference"));
            ExitCode::from(u8::from(difference.is_some()))
        }
        Err(error) => {
            eprintln!("compare: {error}");
            ExitCode::from(2)
        }
    }
}
