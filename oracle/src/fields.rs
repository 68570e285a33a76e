//! Private fields of the original's records, read from their derived `Debug` text.
//!
//! The files are compiled unchanged, so their fields can't be opened up; `{:?}` shows them all.

use std::fmt::Debug;

/// A record's text: `Name { field: 1, other: [2, 3] }`.
pub struct Fields(String);

impl Fields {
    pub fn of(record: &impl Debug) -> Self {
        Self(format!("{record:?}"))
    }

    /// A field that holds one number.
    pub fn number(&self, name: &str) -> u64 {
        decimal(self.after(name).split([',', ' ']).next().unwrap())
    }

    /// A field that holds an array of numbers.
    pub fn numbers(&self, name: &str) -> Vec<u64> {
        self.list(name).map(decimal).collect()
    }

    /// A field that holds an array of entry numbers that may be missing: `[None, Some(3)]`.
    pub fn slots(&self, name: &str) -> Vec<Option<u64>> {
        self.list(name).map(slot).collect()
    }

    fn list(&self, name: &str) -> impl Iterator<Item = &str> {
        let list = self.after(name).strip_prefix('[').unwrap();
        list.split(']').next().unwrap().split(", ")
    }

    /// The text from a field's value on. The space before keeps `now` apart from `count_now`.
    fn after(&self, name: &str) -> &str {
        let label = format!(" {name}: ");
        let at = self.0.find(&label);
        let at = at.unwrap_or_else(|| panic!("no field {name} in {}", self.0));
        &self.0[at + label.len()..]
    }
}

fn slot(text: &str) -> Option<u64> {
    if text == "None" {
        return None;
    }
    let inner = text.strip_prefix("Some(").and_then(|rest| rest.strip_suffix(')'));
    Some(decimal(inner.unwrap_or_else(|| panic!("no entry's number: {text:?}"))))
}

fn decimal(text: &str) -> u64 {
    text.parse().unwrap_or_else(|_| panic!("no number: {text:?}"))
}

#[cfg(test)]
mod tests {
    use super::*;

    #[derive(Debug)]
    #[allow(dead_code)]
    struct Record {
        list: [u64; 3],
        count_now: u64,
        now: u8,
        slots: [Option<usize>; 2],
    }

    #[test]
    fn fields_by_name() {
        let slots = [None, Some(31)];
        let list = [1, u64::MAX, 3];
        let fields = Fields::of(&Record { list, count_now: 4, now: 5, slots });
        assert_eq!(fields.numbers("list"), [1, u64::MAX, 3]);
        assert_eq!(fields.number("count_now"), 4);
        assert_eq!(fields.number("now"), 5);
        assert_eq!(fields.slots("slots"), [None, Some(31)]);
    }
}
