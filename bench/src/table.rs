//! The table: times from here, instruction counts and the archive's functions as they are handed in.

use crate::counts::{self, Counts};
use crate::frames::{Frames, Needs};
use crate::operations::{OPERATIONS, Operation, Run};

/// Calls in one round, and rounds; of these the fastest counts. The sides take turns.
const CALLS: u64 = 1 << 16;
const ROUNDS: usize = 9;

/// Prints a line for each operation. Answers those whose sides differ.
pub fn print(counts: &Counts, frames: &Frames) -> Vec<&'static str> {
    println!(
        "{:<38} {:>9} {:>9} {:>6}   {:>9} {:>9} {:>6}   {:>6} {:>6}",
        "operation", "original", "ours", "ratio", "original", "ours", "ratio", "stack", "code"
    );
    println!(
        "{:<38} {:>26}   {:>26}   {:>13}",
        "", "ns, with the loop", "instructions, without", "ours, bytes"
    );
    let mut differ = Vec::new();
    for operation in OPERATIONS {
        match time(operation) {
            Some(times) => {
                let counted = counts::of(counts, operation.name);
                let (times, counted) = (cells(Some(times)), cells(counted));
                println!(
                    "{:<38} {times}   {counted}   {}",
                    operation.what,
                    memory(operation, frames)
                );
            }
            None => differ.push(operation.name),
        }
    }
    differ
}

/// Nanoseconds for a call of the original and of ours, if their checksums are the same.
fn time(operation: &Operation) -> Option<(f64, f64)> {
    let mut best = (f64::MAX, f64::MAX);
    for _ in 0..ROUNDS {
        let (original, ours) = ((operation.original)(CALLS), (operation.ours)(CALLS));
        if original.checksum != ours.checksum {
            return None;
        }
        best = (best.0.min(nanoseconds(&original)), best.1.min(nanoseconds(&ours)));
    }
    Some(best)
}

fn nanoseconds(run: &Run) -> f64 {
    run.time.as_nanos() as f64 / CALLS as f64
}

/// The original's number, ours, and how many times the original's ours is.
fn cells(pair: Option<(f64, f64)>) -> String {
    let Some((original, ours)) = pair else {
        return format!("{:>9} {:>9} {:>6}", "-", "-", "-");
    };
    format!("{original:>9.1} {ours:>9.1} {:>6.2}", ours / original)
}

/// The deepest stack of the exports that an operation calls, and their code.
fn memory(operation: &Operation, frames: &Frames) -> String {
    let needs: Option<Vec<Needs>> =
        operation.exports.iter().map(|name| frames.get(*name).copied()).collect();
    let Some(needs) = needs.filter(|needs| !needs.is_empty()) else {
        return format!("{:>6} {:>6}", "-", "-");
    };
    let stack = needs.iter().map(|needs| needs.stack).max().unwrap_or(0);
    let code: u64 = needs.iter().map(|needs| needs.code).sum();
    format!("{stack:>6} {code:>6}")
}

/// Prints a line for each export.
pub fn print_exports(frames: &Frames) {
    println!("{:<44} {:>6} {:>6}", "export", "stack", "code");
    for (name, Needs { stack, code }) in frames {
        println!("{name:<44} {stack:>6} {code:>6}");
    }
}
