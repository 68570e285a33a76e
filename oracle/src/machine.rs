//! The original's records, and what the scope (document 01) adds to them.

use original::addr::Access;
use original::cache::{Dcache, Icache};
use original::cop0::{reg, Cop0};
use original::tlb::{Tlb, JTLB_ENTRIES};

use crate::access;
use crate::answers;
use crate::fields::Fields;

/// The timer's pending bit.
const TIMER: u8 = 7;

/// Why an operation is turned away, by the scope's number.
#[derive(Clone, Copy, Debug, Eq, PartialEq)]
pub struct Refusal(pub u8);

impl Refusal {
    /// A data length of 0 or over 8.
    pub const LENGTH: Self = Self(2);
    /// Data or a word that goes past its line's end.
    pub const OFFSET: Self = Self(3);
    /// KSU is 3, which names no mode, and EXL and ERL are 0.
    pub const MODE: Self = Self(4);
    /// An advance of 2^32 counts or more: the timer's distances would come round unseen.
    pub const COUNTS: Self = Self(5);
    /// An `rs` field that names no access form.
    pub const ACCESS_FORM: Self = Self(6);
}

/// All that a trace works on.
pub struct Machine {
    pub cop0: Cop0,
    pub tlb: Tlb,
    pub dcache: Dcache,
    pub icache: Icache,
}

impl Default for Machine {
    fn default() -> Self {
        Self::new()
    }
}

impl Machine {
    pub fn new() -> Self {
        Self { cop0: Cop0::new(), tlb: Tlb::new(), dcache: Dcache::new(), icache: Icache::new() }
    }

    /// The scope's clock advance, which the original leaves to its scheduler: moves the clock,
    /// steps Random, asks the timer, and answers whether Count became Compare.
    pub fn advance(&mut self, counts: u64, steps: u64) -> Result<bool, Refusal> {
        if counts > u64::from(u32::MAX) {
            return Err(Refusal::COUNTS);
        }
        self.cop0.set_now(self.cop0.count_now().wrapping_add(counts));
        self.cop0.tick_random_by(steps);
        let edge = self.cop0.timer_edge();
        if edge {
            self.cop0.set_ip(TIMER, true);
        }
        Ok(edge)
    }

    /// The access that Status asks for; the original leaves it to its pipeline.
    pub fn access(&self) -> Result<Access, Refusal> {
        access::asked_for(self.cop0.read(reg::STATUS))
    }

    /// The answer to `entry`. The original takes the number modulo 32 by itself.
    pub fn entry(&self, number: u64) -> String {
        let entry = self.tlb.entry(number as usize);
        answers::entry(number % JTLB_ENTRIES as u64, entry)
    }

    /// The answer to `state`: the registers as stored, the clock, the micro-TLB, all entries.
    pub fn state(&self) -> String {
        let entries = (0..JTLB_ENTRIES as u64).map(|number| self.entry(number));
        let lines = self.register_lines().into_iter().chain([self.micro_line()]).chain(entries);
        lines.collect::<Vec<String>>().join("\n")
    }

    fn register_lines(&self) -> [String; 2] {
        let (regs, clock) = self.registers();
        [answers::numbers("regs", &regs), answers::numbers("clock", &clock)]
    }

    /// The registers as stored, and the clock's numbers in the order of `state`.
    pub fn registers(&self) -> (Vec<u64>, [u64; 6]) {
        let fields = Fields::of(&self.cop0);
        let clock =
            ["now", "count_epoch_value", "count_epoch_tick", "last_count", "ec", "write_latch"];
        (fields.numbers("regs"), clock.map(|name| fields.number(name)))
    }

    fn micro_line(&self) -> String {
        let (slots, next) = self.micro();
        answers::micro(&slots, next, self.tlb.is_shutdown())
    }

    /// The micro-TLB's slots, and which is filled next.
    pub fn micro(&self) -> (Vec<Option<u64>>, u64) {
        let fields = Fields::of(&self.tlb);
        (fields.slots("itlb"), fields.number("itlb_lru"))
    }
}

#[cfg(test)]
mod tests {
    use original::addr::Mode;

    use super::*;

    #[test]
    fn fresh_state() {
        let state = Machine::new().state();
        let lines: Vec<&str> = state.split('\n').collect();
        assert_eq!(lines.len(), 35);
        let regs: Vec<&str> = lines[0].split(' ').collect();
        assert_eq!((regs.len(), regs[0]), (33, "regs"));
        assert_eq!(regs[1 + usize::from(reg::STATUS)], "0000000000400004");
        let ec_and_latch = "0000000000000007 0000000000000000";
        assert!(lines[1].starts_with("clock 0000000000000000 "));
        assert!(lines[1].ends_with(ec_and_latch));
        assert_eq!(lines[2], "itlb 0000000000000020 0000000000000020 0000000000000000 0");
        let last = "entry 000000000000001f 0000000000000000 000000fffffc0000 0000000000000000 0 ";
        assert!(lines[34].starts_with(last));
    }

    /// Status as it was written is asked.
    #[test]
    fn access_from_status() {
        let mut machine = Machine::new();
        let mode = |mode, wide, erl| Ok(Access { mode, wide, erl });
        assert_eq!(machine.access(), mode(Mode::Kernel, false, true));
        machine.cop0.write(reg::STATUS, 0xB4);
        assert_eq!(machine.access(), mode(Mode::Kernel, true, true));
        machine.cop0.write(reg::STATUS, 0xB0);
        assert_eq!(machine.access(), mode(Mode::User, true, false));
        machine.cop0.write(reg::STATUS, 0xF9);
        assert_eq!(machine.access(), Err(Refusal::MODE));
    }

    /// The scope's numbers P10 and P11.
    #[test]
    fn advances() {
        let mut machine = Machine::new();
        machine.cop0.mtc0(reg::COMPARE, 1);
        machine.cop0.mtc0(reg::COUNT, 0xFFFF_FFFE);
        assert_eq!(machine.advance(2, 0), Ok(false));
        assert_eq!(machine.advance(1, 0), Ok(true));
        assert_eq!(machine.cop0.read(reg::CAUSE), 1 << 15);
        machine.cop0.mtc0(reg::COMPARE, 7);
        machine.cop0.mtc0(reg::COUNT, 7);
        assert_eq!(machine.advance(0xFFFF_FFFF, 0), Ok(false));
        assert_eq!(machine.advance(1, 0), Ok(true));
    }

    #[test]
    fn refused_advance_changes_nothing() {
        let mut machine = Machine::new();
        let before = machine.state();
        assert_eq!(machine.advance(1 << 32, 1), Err(Refusal::COUNTS));
        assert_eq!(machine.state(), before);
    }
}
