//! How often each operation was compared, and in which kinds of trace.

use std::collections::BTreeMap;

use oracle::operations::OPERATIONS;

#[derive(Default)]
pub struct Tally {
    operations: BTreeMap<&'static str, u64>,
    kinds: BTreeMap<&'static str, u64>,
}

impl Tally {
    pub fn add(&mut self, operation: &'static str, kind: &'static str) {
        *self.operations.entry(operation).or_default() += 1;
        *self.kinds.entry(kind).or_default() += 1;
    }

    pub fn total(&self) -> u64 {
        self.kinds.values().sum()
    }

    /// A row for each operation, those that never came among them.
    pub fn print(&self) {
        println!("operations in traces of each kind");
        for (kind, number) in &self.kinds {
            println!("  {kind:<30}{number:>9}");
        }
        println!("operations");
        for row in OPERATIONS {
            let number = self.operations.get(row.name).copied().unwrap_or(0);
            println!("  {:<30}{number:>9}", row.name);
        }
    }
}
