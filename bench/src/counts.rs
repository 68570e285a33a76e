//! Instruction counts, which the script takes from outside: a line is an operation's name, the original's count for each
//! call, and ours.

use std::collections::HashMap;
use std::fs;

use crate::operations::NOTHING;

/// By the operation's name: the original's and ours.
pub type Counts = HashMap<String, (f64, f64)>;

pub fn read(file: &str) -> Result<Counts, String> {
    let text = fs::read_to_string(file).map_err(|e| format!("{file}: {e}"))?;
    text.lines().map(|line| parse(line).ok_or(format!("{file}: not a count: {line}"))).collect()
}

/// Of one operation, without what the loop takes. That of the loop itself is what it is.
pub fn of(counts: &Counts, name: &str) -> Option<(f64, f64)> {
    let (original, ours) = *counts.get(name)?;
    let (a, b) = if name == NOTHING { (0.0, 0.0) } else { *counts.get(NOTHING)? };
    Some((original - a, ours - b))
}

fn parse(line: &str) -> Option<(String, (f64, f64))> {
    let mut words = line.split(' ');
    let name = words.next()?.to_string();
    let counts = (words.next()?.parse().ok()?, words.next()?.parse().ok()?);
    words.next().is_none().then_some((name, counts))
}
