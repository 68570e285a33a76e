//! Measures the hot operations of the Rust original and of Rimjhodek, on the same inputs.

mod counts;
mod fold;
mod frames;
mod operations;
mod rng;
mod room;
mod side;
mod table;

use std::env;
use std::process::ExitCode;

use counts::Counts;
use frames::Frames;
use operations::{OPERATIONS, find};

const USAGE: &str = "bench                    times every operation
bench --with COUNTS CODE the same, with instruction counts and the archive's disassembly from files
bench --list             names the operations
bench --exports CODE     what each export needs of stack and of code, from the archive's disassembly
bench NAME SIDE CALLS    makes calls of one operation; SIDE is original or ours";

fn main() -> ExitCode {
    let words: Vec<String> = env::args().skip(1).collect();
    let words: Vec<&str> = words.iter().map(String::as_str).collect();
    let done = match words[..] {
        [] => compare(&Counts::new(), &Frames::new()),
        ["--with", counts, code] => compare_with(counts, code),
        ["--list"] => {
            list();
            Ok(())
        }
        ["--exports", code] => frames::read(code).map(|frames| table::print_exports(&frames)),
        [name, side, calls] => call(name, side, calls),
        _ => Err(USAGE.to_string()),
    };
    match done {
        Ok(()) => ExitCode::SUCCESS,
        Err(why) => {
            eprintln!("{why}");
            ExitCode::FAILURE
        }
    }
}

fn compare_with(counts: &str, code: &str) -> Result<(), String> {
    compare(&counts::read(counts)?, &frames::read(code)?)
}

fn compare(counts: &Counts, frames: &Frames) -> Result<(), String> {
    match table::print(counts, frames)[..] {
        [] => Ok(()),
        ref differ => Err(format!("the two sides answer differently: {}", differ.join(", "))),
    }
}

fn list() {
    for operation in OPERATIONS {
        println!("{}", operation.name);
    }
}

fn call(name: &str, side: &str, calls: &str) -> Result<(), String> {
    let operation = find(name).ok_or(USAGE)?;
    let run = match side {
        "original" => operation.original,
        "ours" => operation.ours,
        _ => return Err(USAGE.to_string()),
    };
    let calls = calls.parse().map_err(|_| USAGE)?;
    println!("{:016x}", run(calls).checksum);
    Ok(())
}
