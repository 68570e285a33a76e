//! The trace's operations: a row for each, with what it takes and what it does.

use original::addr::{self, Access};
use original::cop0::{self, Cop0, Cop0Op};
use original::exception;
use original::tlb::Tlb;

use crate::answers;
use crate::caches;
use crate::entries;
use crate::exceptions::{self, VECTOR_KINDS};
use crate::machine::{Machine, Refusal};
use crate::parse::Operand::{self, Byte, Exception, Flag, Long, Mode, Vector, Word, A, B};
use Run::{Asks, Does, Gives, Says};

/// One operation of the trace format.
pub struct Operation {
    pub name: &'static str,
    pub operands: &'static [Operand],
    run: Run,
}

/// What an operation does with one number for each operand, within its bounds.
enum Run {
    /// Has nothing to say: `ok`.
    Does(fn(&mut Machine, &[u64])),
    /// Answers a number: `= V`.
    Gives(fn(&mut Machine, &[u64]) -> u64),
    /// Answers a flag: `= F`.
    Asks(fn(&mut Machine, &[u64]) -> bool),
    /// Answers in words of its own, or is turned away: `refused K`.
    Says(fn(&mut Machine, &[u64]) -> Result<String, Refusal>),
}

/// Every operation, in the trace format's order.
pub static OPERATIONS: &[Operation] = &[
    row("new", &[], Does(|m, _| *m = Machine::new())),
    row("mfc0", &[Byte], Gives(|m, a| m.cop0.mfc0(byte(a[0])))),
    row("dmfc0", &[Byte], Gives(|m, a| m.cop0.dmfc0(byte(a[0])))),
    row("read", &[Byte], Gives(|m, a| m.cop0.read(byte(a[0])))),
    row("mtc0", &[Byte, Long], Does(|m, a| m.cop0.mtc0(byte(a[0]), a[1]))),
    row("dmtc0", &[Byte, Long], Does(|m, a| m.cop0.dmtc0(byte(a[0]), a[1]))),
    row("write", &[Byte, Long], Does(|m, a| m.cop0.write(byte(a[0]), a[1]))),
    row("set_hardware", &[Byte, Long], Does(|m, a| m.cop0.set_hardware(byte(a[0]), a[1]))),
    row("set_ip", &[Byte, Flag], Does(|m, a| m.cop0.set_ip(byte(a[0]), a[1] == 1))),
    row("interrupt_pending", &[], Asks(|m, _| m.cop0.interrupt_pending())),
    row("advance", &[Long, Long], Says(|m, a| m.advance(a[0], a[1]).map(answers::edge))),
    row("set_now", &[Long], Does(|m, a| m.cop0.set_now(a[0]))),
    row("tick_random", &[], Does(|m, _| m.cop0.tick_random())),
    row("tick_random_by", &[Long], Does(|m, a| m.cop0.tick_random_by(a[0]))),
    row("timer_edge", &[], Asks(|m, _| m.cop0.timer_edge())),
    row("timer_matches", &[], Asks(|m, _| m.cop0.timer_matches())),
    row("count", &[], Gives(|m, _| m.cop0.count().into())),
    row("count_now", &[], Gives(|m, _| m.cop0.count_now())),
    row("count_ticks_until_timer_match", &[], Gives(|m, _| m.cop0.count_ticks_until_timer_match())),
    row("from_rs", &[Byte], Says(|_, a| access_form(byte(a[0])).map(answers::number))),
    row("is_wide", &[Byte], Asks(|_, a| cop0::is_wide(byte(a[0])))),
    row("is_unused", &[Byte], Asks(|_, a| Cop0::is_unused(byte(a[0])))),
    row("is_shutdown", &[], Asks(|m, _| m.tlb.is_shutdown())),
    row("entry", &[Long], Says(|m, a| Ok(m.entry(a[0])))),
    row("page_size", &[Word], Gives(|_, a| Tlb::page_size(word(a[0])))),
    row("pair_size", &[Word], Gives(|_, a| Tlb::pair_size(word(a[0])))),
    row("lookup", &[Long, Byte, Flag], Says(|m, a| Ok(lookup(m, a)))),
    row("write_entry", &[Long], Does(|m, a| m.tlb.write_entry(a[0] as usize, &m.cop0))),
    row("read_entry", &[Long], Does(|m, a| m.tlb.read_entry(a[0] as usize, &mut m.cop0))),
    row("probe", &[], Does(|m, _| m.tlb.probe(&mut m.cop0))),
    row("jtlb_has_match", &[Long, Byte], Asks(|m, a| m.tlb.jtlb_has_match(a[0], byte(a[1])))),
    row("itlb_probe", &[Long, Byte], Asks(|m, a| m.tlb.itlb_probe(a[0], byte(a[1])))),
    row("itlb_fill", &[Long, Byte], Does(|m, a| m.tlb.itlb_fill(a[0], byte(a[1])))),
    row("segment", &[Long, Mode, Flag, Flag], Says(|_, a| Ok(segment(a)))),
    row("translate_via", &[Long, Byte, Flag, Mode, Flag, Flag], Says(|m, a| Ok(translate(m, a)))),
    row("access", &[], Says(|m, _| m.access().map(answers::access))),
    row("vector", &[Long, Vector], Gives(|_, a| vector(a))),
    row("dispatch", &[Exception, A, B, Long, Flag, Long], Says(|m, a| Ok(dispatch(m, a)))),
    row("nmi", &[Long], Says(|m, a| Ok(nmi(m, a)))),
    row("eret", &[], Gives(|m, _| exception::eret(&mut m.cop0))),
    row("d_hits", &[Word], Asks(|m, a| m.dcache.hits(word(a[0])))),
    row("i_hits", &[Word], Asks(|m, a| m.icache.hits(word(a[0])))),
    row("d_miss_plan", &[Word], Says(|m, a| Ok(miss_plan(m, a)))),
    row("d_install", &[Word, Long, Long], Does(|m, a| m.dcache.install(word(a[0]), line(a)))),
    row("i_install", &[Word, Long, Long, Long, Long], Does(i_install)),
    row("d_read", &[Word, Long], Says(|m, a| d_read(m, a).map(answers::number))),
    row("d_write", &[Word, Long, Long], Says(|m, a| d_write(m, a).map(answers::done))),
    row("i_read_word", &[Word], Says(|m, a| i_read_word(m, a).map(answers::number))),
    row("d_load_tag", &[Word], Gives(|m, a| m.dcache.load_tag(word(a[0])).into())),
    row("i_load_tag", &[Word], Gives(|m, a| m.icache.load_tag(word(a[0])).into())),
    row("d_store_tag", &[Word, Word], Does(|m, a| m.dcache.store_tag(word(a[0]), word(a[1])))),
    row("i_store_tag", &[Word, Word], Does(|m, a| m.icache.store_tag(word(a[0]), word(a[1])))),
    row("d_flush_index", &[Word, Flag, Flag], Says(|m, a| Ok(flush_index(m, a)))),
    row("d_create_dirty_exclusive", &[Word], Says(|m, a| Ok(create_dirty_exclusive(m, a)))),
    row("i_invalidate_index", &[Word], Does(|m, a| m.icache.invalidate_index(word(a[0])))),
    row("i_hit_invalidate", &[Word], Does(|m, a| m.icache.hit_invalidate(word(a[0])))),
    row("i_flush_hit", &[Word], Says(|m, a| Ok(flush_hit(m, a)))),
    row("d_line", &[Long], Says(|m, a| Ok(caches::data_line(&m.dcache, a[0])))),
    row("i_line", &[Long], Says(|m, a| Ok(caches::instruction_line(&m.icache, a[0])))),
    row("state", &[], Says(|m, _| Ok(m.state()))),
];

const fn row(name: &'static str, operands: &'static [Operand], run: Run) -> Operation {
    Operation { name, operands, run }
}

/// The operation of a name; letter case matters.
pub fn find(name: &[u8]) -> Option<&'static Operation> {
    OPERATIONS.iter().find(|row| row.name.as_bytes() == name)
}

impl Operation {
    /// Does it, and gives the answer's text.
    pub fn run(&self, machine: &mut Machine, operands: &[u64]) -> String {
        match self.run {
            Does(run) => {
                run(machine, operands);
                answers::done(())
            }
            Gives(run) => answers::number(run(machine, operands)),
            Asks(run) => answers::flag(run(machine, operands)),
            Says(run) => run(machine, operands).unwrap_or_else(refused),
        }
    }
}

/// An operand that its row bounds to 8 bits.
pub fn byte(operand: u64) -> u8 {
    u8::try_from(operand).expect("the row says Byte")
}

/// An operand that its row bounds to 32 bits.
fn word(operand: u64) -> u32 {
    u32::try_from(operand).expect("the row says Word")
}

fn refused(Refusal(number): Refusal) -> String {
    format!("refused {number}")
}

/// The form that an `rs` field names, by the trace format's numbers.
fn access_form(rs: u8) -> Result<u64, Refusal> {
    match Cop0Op::from_rs(rs).ok_or(Refusal::ACCESS_FORM)? {
        Cop0Op::Mfc0 => Ok(0),
        Cop0Op::Dmfc0 => Ok(1),
        Cop0Op::Mtc0 => Ok(2),
        Cop0Op::Dmtc0 => Ok(3),
    }
}

fn lookup(machine: &mut Machine, operands: &[u64]) -> String {
    let (vaddr, asid, store) = (operands[0], byte(operands[1]), operands[2] == 1);
    let found = machine.tlb.lookup(vaddr, asid, store);
    answers::lookup(found, || entries::answering(&machine.tlb, vaddr, asid))
}

fn segment(operands: &[u64]) -> String {
    answers::segment(addr::segment(operands[0], access(&operands[1..])))
}

fn translate(machine: &mut Machine, operands: &[u64]) -> String {
    let (vaddr, asid, store) = (operands[0], byte(operands[1]), operands[2] == 1);
    let access = access(&operands[3..]);
    let found = addr::translate_via(&mut machine.tlb, vaddr, asid, store, access);
    answers::translation(found, || entries::answering_via(&machine.tlb, vaddr, asid, access))
}

/// The access that the last operands of a row name: MODE, WIDE and ERL.
pub fn access(operands: &[u64]) -> Access {
    const MODES: [addr::Mode; 3] = [addr::Mode::Kernel, addr::Mode::Supervisor, addr::Mode::User];
    Access { mode: MODES[operands[0] as usize], wide: operands[1] == 1, erl: operands[2] == 1 }
}

fn vector(operands: &[u64]) -> u64 {
    exception::vector(operands[0], VECTOR_KINDS[operands[1] as usize])
}

fn dispatch(machine: &mut Machine, operands: &[u64]) -> String {
    let exc = exceptions::exception(operands);
    let (pc, slot, bad) = (operands[3], operands[4] == 1, operands[5]);
    answers::dispatch(exception::dispatch(&mut machine.cop0, exc, pc, slot, bad))
}

fn nmi(machine: &mut Machine, operands: &[u64]) -> String {
    answers::dispatch(exception::nmi(&mut machine.cop0, operands[0]))
}

fn miss_plan(machine: &mut Machine, operands: &[u64]) -> String {
    answers::miss_plan(machine.dcache.miss_plan(word(operands[0])))
}

/// The line that the operands after an address write: its words, the highest byte first.
fn line<const N: usize>(operands: &[u64]) -> [u8; N] {
    let bytes: Vec<u8> = operands[1..].iter().flat_map(|word| word.to_be_bytes()).collect();
    bytes.try_into().expect("the row has all of a line's words")
}

fn i_install(machine: &mut Machine, operands: &[u64]) {
    machine.icache.install(word(operands[0]), line(operands));
}

fn d_read(machine: &mut Machine, operands: &[u64]) -> Result<u64, Refusal> {
    caches::read(&machine.dcache, word(operands[0]), operands[1])
}

fn d_write(machine: &mut Machine, operands: &[u64]) -> Result<(), Refusal> {
    caches::write(&mut machine.dcache, word(operands[0]), operands[1], operands[2])
}

fn i_read_word(machine: &mut Machine, operands: &[u64]) -> Result<u64, Refusal> {
    caches::read_word(&machine.icache, word(operands[0])).map(u64::from)
}

fn flush_index(machine: &mut Machine, operands: &[u64]) -> String {
    let (addr, invalidate, clean) = (word(operands[0]), operands[1] == 1, operands[2] == 1);
    answers::writeback(machine.dcache.flush_index(addr, invalidate, clean))
}

fn create_dirty_exclusive(machine: &mut Machine, operands: &[u64]) -> String {
    answers::writeback(machine.dcache.create_dirty_exclusive(word(operands[0])))
}

fn flush_hit(machine: &mut Machine, operands: &[u64]) -> String {
    answers::writeback(machine.icache.flush_hit(word(operands[0])))
}
