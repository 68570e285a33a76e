//! Where the two sides part.

use crate::trace::Trace;

/// What is unequal, on the original's side and on the binding's.
#[derive(Debug)]
pub struct Unequal {
    pub what: String,
    pub original: String,
    pub binding: String,
}

impl Unequal {
    /// Two texts, if they are unequal.
    pub fn unless_same(what: &str, original: String, binding: String) -> Result<(), Self> {
        if original == binding {
            return Ok(());
        }
        Err(Self { what: what.into(), original, binding })
    }

    /// The first of some words that is unequal, if one is.
    pub fn unless_same_words(what: &str, original: &[u64], binding: &[u64]) -> Result<(), Self> {
        let pairs = original.iter().zip(binding).enumerate();
        match pairs.into_iter().find(|(_, (a, b))| a != b) {
            None => Ok(()),
            Some((at, (a, b))) => {
                let what = format!("word {at} of {what}");
                Err(Self { what, original: format!("{a:016x}"), binding: format!("{b:016x}") })
            }
        }
    }
}

pub struct Difference {
    /// The trace's line, from 0.
    at: usize,
    line: String,
    unequal: Unequal,
}

impl Difference {
    pub fn at(at: usize, line: &[u8], unequal: Unequal) -> Self {
        Self { at, line: line.escape_ascii().to_string(), unequal }
    }

    /// With the trace's name, whose number and seed make it again.
    pub fn told(&self, trace: &Trace) -> String {
        let Self { at, line, unequal: Unequal { what, original, binding } } = self;
        let (name, number) = (&trace.name, at + 1);
        format!(
            "difference in {name}, line {number}: {line}\n  {what}\n  original: {original}\n  binding:  {binding}"
        )
    }
}
