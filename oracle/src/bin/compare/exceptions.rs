//! Random sessions of exceptions: taken, nested and returned from, amid the registers and the
//! table that decide them and that they write.

use oracle::exceptions::{detail, EXCEPTIONS};
use oracle::parse::Operand;
use original::addr::{translate_via, Access, TranslateError};
use original::cop0::reg;
use original::tlb::TlbFault;

use crate::draft::Draft;
use crate::mixed::{self, Move};
use crate::rng::Rng;
use crate::{addresses, aim, translation};

/// Exceptions by their numbers.
const INTERRUPT: u64 = 0;
pub const ADDRESS_ERROR: u64 = 1;
pub const SYSCALL: u64 = 3;
pub const COPROCESSOR_UNUSABLE: u64 = 8;
pub const NMI: u64 = 9;
pub const TLB_REFILL: u64 = 0xA;
pub const TLB_INVALID: u64 = 0xB;
pub const TLB_MODIFIED: u64 = 0xC;

/// The timer's pending bit.
const TIMER: u64 = 7;

/// EXL, ERL, SR, TS and BEV, by their bits of Status.
const LEVELS: [u64; 5] = [1, 2, 20, 21, 22];

/// What a cold reset sets in Status, and where it goes on.
const ERL: u64 = 1 << 2;
const BEV: u64 = 1 << 22;
const RESET: u64 = 0xFFFF_FFFF_BFC0_0000;

/// The registers that decide an exception or a return, or are written by one.
const REGISTERS: [u8; 8] = [
    reg::STATUS,
    reg::CAUSE,
    reg::EPC,
    reg::ERROR_EPC,
    reg::BAD_VADDR,
    reg::CONTEXT,
    reg::XCONTEXT,
    reg::ENTRY_HI,
];

/// Where an instruction may stand. The branch before one at 0 or 3 stands at the end of all.
pub const PLACES: [u64; 7] = [0, 4, 3, 1 << 63, u64::MAX - 3, u64::MAX, 0xFFFF_FFFF_8000_0180];

/// Addresses at the bounds of the fields that are taken from one: 31..13, 39..13 and 63..62.
pub const BOUNDS: [u64; 10] =
    [0x1FFF, 1 << 13, 1 << 31, 1 << 32, 1 << 39, 1 << 40, 1 << 61, 1 << 62, 1 << 63, u64::MAX];

/// How often each move is made, against the others.
const MOVES: [(u64, Move); 16] = [
    (40, take),
    (16, nest),
    (24, handle),
    (10, take_nmi),
    (10, give_back),
    (24, levels),
    (24, transfer),
    (16, look),
    (14, vectors),
    (16, interrupt),
    (20, fail),
    (6, boot),
    (4, translation::write_apart),
    (6, translation::lookup),
    (2, translation::probe),
    (8, mixed::any_move),
];

pub fn session(rng: Rng, operations: usize) -> Vec<u8> {
    translation::session(rng, operations, &MOVES, translation::write_apart)
}

pub fn any_move(draft: &mut Draft) {
    mixed::a_move(&mut draft.rng, &MOVES)(draft);
}

/// Each exception with each of its operands' values, as EXC, A and B.
pub fn all() -> Vec<[u64; 3]> {
    let mut all = Vec::new();
    for number in 0..EXCEPTIONS.len() as u64 {
        for a in values(detail(number, 0)) {
            for b in values(detail(number, 1)) {
                all.push([number, *a, *b]);
            }
        }
    }
    all
}

/// All values of a flag; units that CE can hold, and some that it can't.
fn values(detail: Operand) -> &'static [u64] {
    match detail {
        Operand::Unused => &[0],
        Operand::Flag => &[0, 1],
        _ => &[0, 1, 2, 3, 4, 5, 255],
    }
}

fn any_exception(rng: &mut Rng) -> [u64; 3] {
    let number = rng.below(EXCEPTIONS.len() as u64);
    let [a, b] = [0, 1].map(|place| match detail(number, place) {
        Operand::Byte if rng.one_in(4) => rng.below(256),
        detail => rng.pick(values(detail)),
    });
    [number, a, b]
}

/// An instruction's address: at a telling place, near it, among a program's, or anywhere.
fn an_address(rng: &mut Rng) -> u64 {
    let place = rng.pick(&PLACES);
    match rng.below(6) {
        0 | 1 => place,
        2 => aim::near(rng, place),
        3 | 4 => 0xFFFF_FFFF_8000_0000 | rng.below(1 << 22) << 2,
        _ => aim::value(rng),
    }
}

/// A faulting address: at a segment's limit, at an entry, at the bounds of its fields, or anywhere.
fn a_bad_address(draft: &mut Draft) -> u64 {
    match draft.rng.below(4) {
        0 => addresses::of_segments(&mut draft.rng),
        1 => translation::address_and_asid(draft).0,
        2 => draft.rng.pick(&BOUNDS) ^ draft.rng.pick(&BOUNDS),
        _ => aim::value(&mut draft.rng),
    }
}

/// Takes an exception, of any instruction and from any address.
fn take_this(draft: &mut Draft, exception: [u64; 3]) {
    let bad = a_bad_address(draft);
    take_from(draft, exception, bad);
}

/// Takes an exception from an address.
fn take_from(draft: &mut Draft, [number, a, b]: [u64; 3], bad: u64) {
    let pc = an_address(&mut draft.rng);
    let slot = draft.rng.below(2);
    draft.put("dispatch", &[number, a, b, pc, slot, bad]);
}

fn take(draft: &mut Draft) {
    let exception = any_exception(&mut draft.rng);
    take_this(draft, exception);
    if draft.rng.flag() {
        look(draft);
    }
}

/// Exceptions in the handlers of exceptions: the way back to the first is kept.
fn nest(draft: &mut Draft) {
    for _ in 0..2 + draft.rng.below(3) {
        take(draft);
    }
    draft.put("read", &[reg::EPC.into()]);
    draft.put("read", &[reg::CAUSE.into()]);
    for _ in 0..1 + draft.rng.below(2) {
        give_back(draft);
    }
}

/// An exception and its return, now and then to the next instruction.
fn handle(draft: &mut Draft) {
    take(draft);
    if draft.rng.one_in(3) {
        let next = draft.machine.cop0.read(reg::EPC).wrapping_add(4);
        draft.put("dmtc0", &[reg::EPC.into(), next]);
    }
    give_back(draft);
}

/// NMI by both its names; its handler may take exceptions of its own.
fn take_nmi(draft: &mut Draft) {
    if draft.rng.flag() {
        let pc = an_address(&mut draft.rng);
        draft.put("nmi", &[pc]);
    } else {
        take_this(draft, [NMI, 0, 0]);
    }
    look(draft);
    if draft.rng.one_in(3) {
        take(draft);
    }
    for _ in 0..1 + draft.rng.below(2) {
        give_back(draft);
    }
}

fn give_back(draft: &mut Draft) {
    draft.put("eret", &[]);
    if draft.rng.one_in(3) {
        draft.put("read", &[reg::STATUS.into()]);
    }
}

/// Some of the levels turned over in Status, its other bits kept or changed. Hardware's store
/// reaches TS as well.
fn levels(draft: &mut Draft) {
    let mut status = draft.machine.cop0.read(reg::STATUS);
    let rng = &mut draft.rng;
    if rng.one_in(3) {
        status ^= aim::value(rng);
    }
    for bit in LEVELS {
        status ^= rng.below(2) << bit;
    }
    let name = rng.pick(&["set_hardware", "set_hardware", "mtc0", "dmtc0", "write"]);
    draft.put(name, &[reg::STATUS.into(), status]);
}

fn transfer(draft: &mut Draft) {
    let name = draft.rng.pick(&["mtc0", "dmtc0", "dmtc0", "write", "set_hardware"]);
    let register = draft.rng.pick(&REGISTERS).into();
    let value = aim::value(&mut draft.rng);
    draft.put(name, &[register, value]);
    if draft.rng.one_in(4) {
        look(draft);
    }
}

fn look(draft: &mut Draft) {
    let name = draft.rng.pick(&["mfc0", "dmfc0", "read"]);
    let register = draft.rng.pick(&REGISTERS).into();
    draft.put(name, &[register]);
}

/// Each kind under Status as it is, or under any other.
fn vectors(draft: &mut Draft) {
    let now = draft.machine.cop0.read(reg::STATUS);
    let rng = &mut draft.rng;
    let turned = now ^ 1 << rng.pick(&LEVELS);
    let other = aim::value(rng);
    let status = rng.pick(&[now, turned, other]);
    let kind = rng.below(4);
    draft.put("vector", &[status, kind]);
}

/// A pending bit or the timer's edge. An interrupt that is due is taken, and is due no more until
/// its handler has returned.
fn interrupt(draft: &mut Draft) {
    let bit = draft.rng.pick(&[0, 1, 2, 4, TIMER, TIMER]);
    let levels = draft.rng.pick(&[0, 0, 0, 0b010, 0b100, 0b110]);
    draft.put("mtc0", &[reg::STATUS.into(), 1 << (8 + bit) | levels | 1]);
    if bit == TIMER {
        let counts = aim::to_compare(draft);
        draft.put("advance", &[counts, 1]);
    } else {
        draft.put("set_ip", &[bit, 1]);
    }
    draft.put("interrupt_pending", &[]);
    if draft.machine.cop0.interrupt_pending() {
        take_this(draft, [INTERRUPT, 0, 0]);
        draft.put("interrupt_pending", &[]);
        let on = draft.rng.below(2);
        draft.put("set_ip", &[bit, on]);
        draft.put("eret", &[]);
        draft.put("interrupt_pending", &[]);
    }
}

/// A translation by the access that Status asks for. What it fails with is taken as an exception;
/// a miss has its handler write the entry and return, and is tried again.
fn fail(draft: &mut Draft) {
    draft.put("access", &[]);
    let Ok(access) = draft.machine.access() else {
        return;
    };
    let (vaddr, _) = translation::address_and_asid(draft);
    let asid = draft.machine.cop0.read(reg::ENTRY_HI) as u8;
    let store = draft.rng.flag();
    let [mode, wide, erl] = operands_of(access);
    let operands = [vaddr, asid.into(), store.into(), mode, wide, erl];
    let answer = translate_via(&mut draft.machine.tlb.clone(), vaddr, asid, store, access);
    draft.put("translate_via", &operands);
    let Err(error) = answer else {
        return;
    };
    take_from(draft, exception_of(error, store, access.wide), vaddr);
    if error == TranslateError::Tlb(TlbFault::Refill) {
        refill(draft);
        draft.put("translate_via", &operands);
    }
}

/// MODE, WIDE and ERL. The modes are declared in the order of their numbers.
fn operands_of(access: Access) -> [u64; 3] {
    [access.mode as u64, access.wide.into(), access.erl.into()]
}

/// Boot code: any KSU and widths while ERL is 1, and the handler of a reset goes on; then ERL is
/// cleared by a return or by a write of Status, and what fetched the handler is tried once more.
fn boot(draft: &mut Draft) {
    let status = BEV | ERL | draft.rng.below(256);
    let vaddr = RESET + draft.rng.below(4) * 4;
    draft.put("mtc0", &[reg::STATUS.into(), status]);
    fetch(draft, vaddr);
    if draft.rng.flag() {
        give_back(draft);
    } else {
        draft.put("mtc0", &[reg::STATUS.into(), status & !ERL]);
    }
    fetch(draft, vaddr);
}

/// A translation by the access that Status asks for, if it asks for one.
fn fetch(draft: &mut Draft, vaddr: u64) {
    draft.put("access", &[]);
    if let Ok(access) = draft.machine.access() {
        let [mode, wide, erl] = operands_of(access);
        draft.put("translate_via", &[vaddr, 0, 0, mode, wide, erl]);
    }
}

fn exception_of(error: TranslateError, store: bool, wide: bool) -> [u64; 3] {
    let store = store.into();
    match error {
        TranslateError::Address => [ADDRESS_ERROR, store, 0],
        TranslateError::Tlb(TlbFault::Refill) => [TLB_REFILL, store, wide.into()],
        TranslateError::Tlb(TlbFault::Invalid) => [TLB_INVALID, store, 0],
        TranslateError::Tlb(TlbFault::Modified) => [TLB_MODIFIED, 0, 0],
    }
}

/// A handler that writes an entry under EntryHi as the exception left it, and returns.
fn refill(draft: &mut Draft) {
    draft.put("mtc0", &[reg::PAGE_MASK.into(), 0]);
    for register in [reg::ENTRY_LO0, reg::ENTRY_LO1] {
        let half = translation::entry_lo(&mut draft.rng, 0);
        draft.put("mtc0", &[register.into(), half]);
    }
    let number = draft.machine.cop0.read(reg::RANDOM);
    draft.put("write_entry", &[number]);
    draft.put("eret", &[]);
}
