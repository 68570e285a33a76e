//! The command line.

use std::ffi::OsString;
use std::path::{Path, PathBuf};

pub const USAGE: &str = "usage: compare [--seed HEX] [--operations N] [--replay PROGRAM]";

pub struct Options {
    pub seed: u64,
    /// Traces are made until so many operations are compared.
    pub operations: u64,
    /// The program to compare with; where none is named, the script that runs `replay`.
    pub replay: PathBuf,
}

impl Options {
    /// None where the words are not as [`USAGE`] has them.
    pub fn read(mut words: impl Iterator<Item = OsString>) -> Option<Self> {
        let replay = repository().join("crates/replay/run");
        let mut options = Self { seed: 1, operations: 2_000_000, replay };
        while let Some(word) = words.next() {
            let value = words.next()?;
            match word.to_str()? {
                "--seed" => options.seed = u64::from_str_radix(value.to_str()?, 16).ok()?,
                "--operations" => options.operations = value.to_str()?.parse().ok()?,
                // The program is run in another folder.
                "--replay" => options.replay = std::path::absolute(value).ok()?,
                _ => return None,
            }
        }
        Some(options)
    }
}

/// The root of the repository that this was built in.
pub fn repository() -> &'static Path {
    Path::new(env!("CARGO_MANIFEST_DIR")).parent().expect("the folder oracle/ is inside one")
}
