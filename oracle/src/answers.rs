//! The answers' lines, in the trace format's words.

use std::fmt::Write;

use original::addr::{Access, Cached, Mode, Physical, Segment, TranslateError};
use original::cache::Writeback;
use original::exception::Dispatch;
use original::tlb::{Entry, PageEntry, TlbFault, Translated, JTLB_ENTRIES};

/// What stands for an empty slot of the micro-TLB.
const EMPTY: u64 = JTLB_ENTRIES as u64;

/// A line in the making: a name, then numbers, flags and bytes.
struct Line(String);

impl Line {
    fn new(name: &str) -> Self {
        Self(name.into())
    }

    fn number(mut self, value: impl Into<u64>) -> Self {
        write!(self.0, " {:016x}", value.into()).expect("a text takes all");
        self
    }

    fn flag(mut self, value: bool) -> Self {
        self.0 += if value { " 1" } else { " 0" };
        self
    }

    fn bytes(mut self, bytes: &[u8]) -> Self {
        self.0 += " ";
        bytes.iter().for_each(|byte| write!(self.0, "{byte:02x}").expect("a text takes all"));
        self
    }

    fn half(self, page: PageEntry) -> Self {
        self.number(page.pfn).number(page.c).flag(page.dirty).flag(page.valid)
    }
}

/// There is nothing to say.
pub fn done(_: ()) -> String {
    "ok".into()
}

pub fn number(value: u64) -> String {
    Line::new("=").number(value).0
}

pub fn flag(value: bool) -> String {
    Line::new("=").flag(value).0
}

pub fn edge(edge: bool) -> String {
    Line::new("edge").flag(edge).0
}

/// A line of numbers alone.
pub fn numbers(name: &str, numbers: &[u64]) -> String {
    numbers.iter().fold(Line::new(name), |line, number| line.number(*number)).0
}

pub fn micro(slots: &[Option<u64>], next: u64, shutdown: bool) -> String {
    let slots = slots.iter().map(|slot| slot.unwrap_or(EMPTY));
    slots.fold(Line::new("itlb"), Line::number).number(next).flag(shutdown).0
}

pub fn entry(number: u64, entry: Entry) -> String {
    let tag = Line::new("entry").number(number).number(entry.page_mask).number(entry.vpn2);
    let tag = tag.number(entry.asid).flag(entry.global).number(entry.region);
    tag.half(entry.lo0).half(entry.lo1).0
}

/// With the number of the entry that answered, where one did.
pub fn lookup(answer: Result<Translated, TlbFault>, entry: impl FnOnce() -> u64) -> String {
    match answer {
        Ok(found) => at(found.addr, found.uncached, entry()),
        Err(fault) => tlb_fault(fault),
    }
}

/// The same of a translation.
pub fn translation(
    answer: Result<Physical, TranslateError>,
    entry: impl FnOnce() -> u64,
) -> String {
    match answer {
        Ok(found) => at(found.addr, is_cached(found.cached), entry()),
        Err(TranslateError::Address) => "address".into(),
        Err(TranslateError::Tlb(fault)) => tlb_fault(fault),
    }
}

pub fn segment(segment: Segment) -> String {
    match segment {
        Segment::Direct { addr, cached } => {
            Line::new("direct").number(addr).flag(is_cached(cached)).0
        }
        Segment::Mapped => "mapped".into(),
        Segment::Invalid => "address".into(),
    }
}

pub fn access(access: Access) -> String {
    let mode = match access.mode {
        Mode::Kernel => 0_u8,
        Mode::Supervisor => 1,
        Mode::User => 2,
    };
    Line::new("access").number(mode).flag(access.wide).flag(access.erl).0
}

pub fn dispatch(taken: Dispatch) -> String {
    Line::new("vector").number(taken.vector).number(taken.stall_cycles).0
}

/// What a miss asks for, if it is one.
pub fn miss_plan(plan: Option<Option<Writeback<16>>>) -> String {
    match plan {
        None => "hit".into(),
        Some(None) => "fill".into(),
        Some(Some(out)) => evict(out),
    }
}

pub fn writeback<const N: usize>(out: Option<Writeback<N>>) -> String {
    out.map_or("none".into(), evict)
}

pub fn cache_line(tag: u32, valid: bool, dirty: bool, bytes: &[u8]) -> String {
    Line::new("line").number(tag).flag(valid).flag(dirty).bytes(bytes).0
}

fn evict<const N: usize>(out: Writeback<N>) -> String {
    Line::new("evict").number(out.addr).bytes(&out.data).0
}

/// The flag is UNCACHED for a lookup and CACHED for a translation.
fn at(address: u32, flag: bool, entry: u64) -> String {
    Line::new("at").number(address).flag(flag).number(entry).0
}

fn tlb_fault(fault: TlbFault) -> String {
    let word = match fault {
        TlbFault::Refill => "refill",
        TlbFault::Invalid => "invalid",
        TlbFault::Modified => "modified",
    };
    word.into()
}

fn is_cached(cached: Cached) -> bool {
    cached == Cached::Yes
}
