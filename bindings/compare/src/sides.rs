//! Both sides of a run: each operation on the original and on the binding, and then the state of
//! both.

use original::cache::{DCACHE_LINE, ICACHE_LINE};
use original::cop0::reg;
use rimjhodek::addr::{translate_via, Access};
use rimjhodek::ffi::NO_ENTRY;

use crate::difference::Unequal;
use crate::words;

/// Why a trace ends before its last line.
pub enum End {
    /// A line that is no operation.
    Fault,
    Differ(Unequal),
}

impl From<Unequal> for End {
    fn from(unequal: Unequal) -> Self {
        Self::Differ(unequal)
    }
}

pub struct Sides {
    original: oracle::machine::Machine,
    binding: bound::machine::Machine,
    /// What was compared last: where both sides still have it, they are the same, and the original's
    /// private fields need not be read again.
    registers: Option<(original::cop0::Cop0, rimjhodek::cop0::Cop0)>,
    table: Option<(original::tlb::Tlb, rimjhodek::tlb::Tlb)>,
    /// Has an operation been played that could change a cache?
    touched_caches: bool,
}

impl Sides {
    pub fn new() -> Self {
        Self {
            original: oracle::machine::Machine::new(),
            binding: bound::machine::Machine::new(),
            registers: None,
            table: None,
            touched_caches: false,
        }
    }

    /// Plays one line on both, and compares the answers and the state. Says which operation it was,
    /// if it was one.
    pub fn play(&mut self, line: &[u8]) -> Result<Option<&'static str>, End> {
        let Ok(call) = oracle::parse::parse(line) else {
            return Err(End::Fault);
        };
        let Some(call) = call else {
            return Ok(None);
        };
        let (name, operands) = (call.operation.name, &call.operands[..]);
        if name == "state" {
            // Its text is made of the original's fields; the state itself is compared all the same.
            self.compare_words()?;
            return Ok(Some(name));
        }
        let original = call.operation.run(&mut self.original, operands);
        let binding = self.run_binding(name, operands)?;
        Unequal::unless_same("answer", original, binding)?;
        self.compare_state(name, operands)?;
        Ok(Some(name))
    }

    /// The binding's answer, by the oracle's own driver; where the binding has more to say about an
    /// operation than the original, that must agree with it.
    fn run_binding(&mut self, name: &str, operands: &[u64]) -> Result<String, Unequal> {
        let operation = bound::operations::find(name.as_bytes()).expect("the same table");
        let before = self.binding.cop0.clone();
        let answer = operation.run(&mut self.binding, operands);
        match name {
            "advance" => self.advance_in_one(before, operands, &answer)?,
            "access" => self.access_in_one(&answer)?,
            "lookup" | "translate_via" => self.entry_by_itself(name, operands, &answer)?,
            "dispatch" => kinds_of_exception(operands)?,
            _ => (),
        }
        Ok(answer)
    }

    /// The driver advances in four calls, as the original's scheduler does. The one call that the
    /// binding has must say and leave the same.
    fn advance_in_one(
        &mut self,
        before: rimjhodek::cop0::Cop0,
        operands: &[u64],
        answer: &str,
    ) -> Result<(), Unequal> {
        let mut cop0 = before;
        let edge = match cop0.advance(operands[0], operands[1]) {
            Ok(edge) => format!("edge {}", u8::from(edge)),
            Err(refusal) => format!("refused {}", refusal.number()),
        };
        Unequal::unless_same("one advance", answer.into(), edge)?;
        let what = "the registers after one advance";
        Unequal::unless_same_words(what, &self.binding.cop0.words, &cop0.words)
    }

    /// The driver reads the access off Status itself; the binding has a call for that.
    fn access_in_one(&self, answer: &str) -> Result<(), Unequal> {
        let granted = match Access::from_status(self.binding.cop0.read(reg::STATUS)) {
            Ok(Access { mode, wide, erl }) => {
                format!("access {:016x} {} {}", mode as u8, u8::from(wide), u8::from(erl))
            }
            Err(refusal) => format!("refused {}", refusal.number()),
        };
        Unequal::unless_same("Access::from_status", answer.into(), granted)
    }

    /// The driver walks the table for the entry that answered; the binding's answer has its number. A
    /// lookup that succeeds changes nothing, so that it can be made once more.
    fn entry_by_itself(
        &mut self,
        name: &str,
        operands: &[u64],
        answer: &str,
    ) -> Result<(), Unequal> {
        let (vaddr, asid, store) = (operands[0], operands[1] as u8, operands[2] == 1);
        let tlb = &mut self.binding.tlb;
        let entry = if name == "lookup" {
            tlb.lookup(vaddr, asid, store).ok().map(|found| found.entry)
        } else {
            let access = bound::operations::access(&operands[3..]);
            let found = translate_via(tlb, vaddr, asid, store, access).ok();
            found.map(|found| found.entry.unwrap_or(NO_ENTRY))
        };
        let walked = answer.strip_prefix("at ").and_then(|at| at.split(' ').nth(2));
        let told = entry.map(|entry| format!("{entry:016x}"));
        let text = |entry: Option<&str>| entry.unwrap_or("none").to_string();
        Unequal::unless_same("the entry's number", text(walked), text(told.as_deref()))
    }

    /// What an operation can have changed: a cache's changes no register.
    fn compare_state(&mut self, name: &str, operands: &[u64]) -> Result<(), Unequal> {
        match &name[..2] {
            "d_" => self.compare_line("d_line", operands[0] / line_size(name, DCACHE_LINE)),
            "i_" => self.compare_line("i_line", operands[0] / line_size(name, ICACHE_LINE)),
            _ => self.compare_words(),
        }
    }

    /// All words of the registers and of the table.
    fn compare_words(&mut self) -> Result<(), Unequal> {
        let Self { original, binding, registers, table, .. } = self;
        let same = |(a, b): &(_, _)| *a == original.cop0 && *b == binding.cop0;
        if !registers.as_ref().is_some_and(same) {
            let expected = words::registers(original);
            Unequal::unless_same_words("the registers", &expected, &binding.cop0.words)?;
            *registers = Some((original.cop0.clone(), binding.cop0.clone()));
        }
        let same = |(a, b): &(_, _)| *a == original.tlb && *b == binding.tlb;
        if !table.as_ref().is_some_and(same) {
            let expected = words::table(original);
            Unequal::unless_same_words("the table", &expected, &binding.tlb.words)?;
            *table = Some((original.tlb.clone(), binding.tlb.clone()));
        }
        Ok(())
    }

    /// The line that a cache's operation was about, as it is stored.
    fn compare_line(&mut self, name: &str, index: u64) -> Result<(), Unequal> {
        self.touched_caches = true;
        let row = oracle::operations::find(name.as_bytes()).expect("an operation");
        let original = row.run(&mut self.original, &[index]);
        let row = bound::operations::find(name.as_bytes()).expect("an operation");
        let binding = row.run(&mut self.binding, &[index]);
        Unequal::unless_same(&format!("{name} {index:x}"), original, binding)
    }

    /// Everything, all lines of the caches too, where they could have changed.
    pub fn compare_all(&mut self) -> Result<(), Unequal> {
        self.compare_words()?;
        if !self.touched_caches {
            return Ok(());
        }
        let (dcache, icache) = (&self.binding.dcache, &self.binding.icache);
        let original = words::data_cache(&self.original.dcache);
        let binding = words::told::<16>("Dcache", &dcache.lines, &dcache.tags);
        Unequal::unless_same("the data cache", original, binding)?;
        let original = words::instruction_cache(&self.original.icache);
        let binding = words::told::<32>("Icache", &icache.lines, &icache.tags);
        Unequal::unless_same("the instruction cache", original, binding)
    }
}

/// What an address is divided by for its line's number; `d_line` and `i_line` have the number.
fn line_size(name: &str, size: u32) -> u64 {
    if name.ends_with("_line") {
        return 1;
    }
    size.into()
}

/// What an exception is, beside what taking it does.
fn kinds_of_exception(operands: &[u64]) -> Result<(), Unequal> {
    use original::exception::{exc_code_of, vector_kind_of, writes_bad_vaddr};
    let exc = oracle::exceptions::exception(operands);
    let original = (exc_code_of(exc), vector_kind_of(exc) as u8, writes_bad_vaddr(exc));
    let exc = bound::exceptions::exception(operands);
    let binding = (
        rimjhodek::exception::exc_code_of(exc),
        rimjhodek::exception::vector_kind_of(exc) as u8,
        rimjhodek::exception::writes_bad_vaddr(exc),
    );
    Unequal::unless_same("code, vector, address", format!("{original:?}"), format!("{binding:?}"))
}
