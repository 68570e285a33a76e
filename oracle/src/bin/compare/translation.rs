//! Random sessions on the table and the segments, each move aimed at the table so far.

use oracle::operations::access as access_of;
use original::addr::{segment, Segment};
use original::cop0::reg;
use original::tlb::{Entry, JTLB_ENTRIES, VPN2_MASK};

use crate::addresses;
use crate::aim;
use crate::draft::{Draft, Dress};
use crate::mixed::{self, a_move, Move};
use crate::rng::Rng;

/// How often each move is made, against the others. A tame session writes entries apart, so that
/// its lookups find one; a wild one writes them anywhere, and soon shuts its table down.
const TAME: [(u64, Move); 12] = [
    (10, write_apart),
    (50, lookup),
    (70, translate),
    (20, segments),
    (8, micro),
    (6, probe),
    (12, matches),
    (5, read_back),
    (6, entries),
    (5, sizes),
    (6, access),
    (5, mixed::any_move),
];
const WILD: [(u64, Move); 13] = [
    (12, write_anywhere),
    (8, write_double),
    (30, lookup),
    (30, translate),
    (10, segments),
    (16, micro),
    (12, probe),
    (16, matches),
    (8, read_back),
    (8, entries),
    (4, sizes),
    (4, access),
    (4, mixed::any_move),
];

/// A session with a table that is hardly ever shut down.
pub fn tame(rng: Rng, operations: usize) -> Vec<u8> {
    session(rng, operations, &TAME, write_apart)
}

pub fn wild(rng: Rng, operations: usize) -> Vec<u8> {
    session(rng, operations, &WILD, write_anywhere)
}

/// A session of some moves, on a table that `write` fills; a table that is shut down is soon left
/// for a fresh one.
pub fn session(mut rng: Rng, operations: usize, moves: &[(u64, Move)], write: Move) -> Vec<u8> {
    let dress = if rng.one_in(4) { Dress::Fancy } else { Dress::Plain };
    let mut draft = Draft::new(rng, dress);
    fill(&mut draft, write);
    while draft.operations < operations {
        a_move(&mut draft.rng, moves)(&mut draft);
        if draft.machine.tlb.is_shutdown() && draft.rng.one_in(12) {
            draft.put("is_shutdown", &[]);
            draft.put("new", &[]);
            fill(&mut draft, write);
        }
    }
    draft.finish()
}

pub fn tame_move(draft: &mut Draft) {
    a_move(&mut draft.rng, &TAME)(draft);
}

pub fn wild_move(draft: &mut Draft) {
    a_move(&mut draft.rng, &WILD)(draft);
}

/// Some entries to start with.
pub fn fill(draft: &mut Draft, write: Move) {
    for _ in 0..2 + draft.rng.below(8) {
        write(draft);
    }
}

/// Writes where the entry overlaps no other, if there is such a place.
pub fn write_apart(draft: &mut Draft) {
    registers(draft);
    let free = addresses::entry_number(&mut draft.rng);
    match overlapped(draft)[..] {
        [] => draft.put("write_entry", &[free]),
        [one] => draft.put("write_entry", &[one]),
        _ => {}
    }
}

fn write_anywhere(draft: &mut Draft) {
    registers(draft);
    let number = addresses::entry_number(&mut draft.rng);
    draft.put("write_entry", &[number]);
}

/// Writes an entry a second time, now and then with another mask or other halves.
fn write_double(draft: &mut Draft) {
    let rng = &mut draft.rng;
    let (first, second) = (addresses::entry_number(rng), addresses::entry_number(rng));
    draft.put("read_entry", &[first]);
    if draft.rng.flag() {
        one_register(draft);
    }
    draft.put("write_entry", &[second]);
}

/// The entries that overlap the one that the registers hold.
fn overlapped(draft: &Draft) -> Vec<u64> {
    let mut tlb = draft.machine.tlb.clone();
    tlb.write_entry(0, &draft.machine.cop0);
    let made = tlb.entry(0);
    let table = (0..JTLB_ENTRIES).map(|number| draft.machine.tlb.entry(number));
    let over = table.enumerate().filter(|(_, entry)| overlap(&made, entry));
    over.map(|(number, _)| number as u64).collect()
}

/// Whether some address and ASID match both.
fn overlap(one: &Entry, other: &Entry) -> bool {
    let free = u64::from(one.page_mask | other.page_mask);
    let same_tag = one.region == other.region && (one.vpn2 ^ other.vpn2) & !free == 0;
    same_tag && (one.global || other.global || one.asid == other.asid)
}

/// All that an entry is written from; or a part, so that entries resemble each other.
fn registers(draft: &mut Draft) {
    if draft.rng.one_in(3) {
        one_register(draft);
        return;
    }
    for (register, value) in entry_registers(draft) {
        put_register(draft, register, value);
    }
}

fn one_register(draft: &mut Draft) {
    let values = entry_registers(draft);
    let (register, value) = draft.rng.pick(&values);
    put_register(draft, register, value);
}

/// `mtc0` is the rarer one: of an address it would keep 32 bits alone.
fn put_register(draft: &mut Draft, register: u8, value: u64) {
    let name = draft.rng.pick(&["dmtc0", "dmtc0", "write", "set_hardware", "mtc0"]);
    draft.put(name, &[register.into(), value]);
}

fn entry_registers(draft: &mut Draft) -> [(u8, u64); 4] {
    let hi = entry_hi(draft);
    let rng = &mut draft.rng;
    let global = rng.pick(&[0b00, 0b00, 0b01, 0b10, 0b11]);
    [
        (reg::ENTRY_HI, hi),
        (reg::PAGE_MASK, page_mask(rng)),
        (reg::ENTRY_LO0, entry_lo(rng, global & 1)),
        (reg::ENTRY_LO1, entry_lo(rng, global >> 1)),
    ]
}

/// A tag by a segment's limit, beside another entry, or anywhere; the bits that the register
/// lacks may be set.
fn entry_hi(draft: &mut Draft) -> u64 {
    let asid = addresses::some_asid(&mut draft.rng);
    let vaddr = match draft.rng.below(4) {
        0 => addresses::of_segments(&mut draft.rng),
        1 => beside(draft),
        2 => draft.rng.pick(&[0, 0, 1, 2, 3, 3]) << 62 | draft.rng.next() & VPN2_MASK,
        _ => draft.rng.below(1 << 31),
    };
    let litter = if draft.rng.one_in(4) { vaddr & 0x1F00 } else { 0 };
    vaddr & !0x1FFF | litter | asid
}

/// The address of an entry's neighbour.
fn beside(draft: &mut Draft) -> u64 {
    let entry = addresses::an_entry(draft);
    let rng = &mut draft.rng;
    let step = (u64::from(entry.page_mask) | 0x1FFF) + 1;
    let tag = entry.vpn2.wrapping_add(rng.pick(&[0, step, step.wrapping_neg()]));
    addresses::filled(rng, entry.region, tag & VPN2_MASK)
}

/// One of the seven page sizes; pairs of bits with gaps; any twelve bits; any at all.
pub fn page_mask(rng: &mut Rng) -> u64 {
    let sizes = rng.below(7);
    let pairs = (0..6).map(|pair| rng.pick(&[0, 0b01, 0b10, 0b11]) << (2 * pair));
    let pairs: u64 = pairs.sum();
    match rng.below(8) {
        0..=3 => ((1 << (2 * sizes)) - 1) << 13,
        4 | 5 => pairs << 13,
        6 => rng.below(1 << 12) << 13,
        _ => aim::value(rng),
    }
}

/// A half that is valid and dirty more often than not, and uncached often.
pub fn entry_lo(rng: &mut Rng, global: u64) -> u64 {
    let any = rng.next();
    let frame = rng.pick(&[0, 0xF_FFFF, any, any, any >> 44]) << 6;
    let cache = rng.pick(&[2, 2, 3, any & 7]) << 3;
    let dirty = u64::from(!rng.one_in(3)) << 2;
    let valid = u64::from(!rng.one_in(5)) << 1;
    frame & !0x3F | cache | dirty | valid | global
}

pub fn lookup(draft: &mut Draft) {
    let (vaddr, asid) = address_and_asid(draft);
    let store = draft.rng.below(2);
    draft.put("lookup", &[vaddr, asid, store]);
}

/// An address at an entry and, most often, an ASID that the entry matches.
pub fn address_and_asid(draft: &mut Draft) -> (u64, u64) {
    let entry = a_written_entry(draft);
    let rng = &mut draft.rng;
    (addresses::of_entry(rng, &entry), addresses::asid(rng, &entry))
}

/// An address that an entry matches, with its ASID.
fn matching(draft: &mut Draft) -> (u64, u64) {
    let entry = a_written_entry(draft);
    (addresses::inside(&mut draft.rng, &entry), entry.asid.into())
}

/// An entry that is no longer as it was made, if one comes up soon.
fn a_written_entry(draft: &mut Draft) -> Entry {
    let mut entry = addresses::an_entry(draft);
    for _ in 0..20 {
        if entry.lo0.valid || entry.lo1.valid {
            break;
        }
        entry = addresses::an_entry(draft);
    }
    entry
}

/// Any access, most often one under which the address is mapped.
fn translate(draft: &mut Draft) {
    let (vaddr, asid) = address_and_asid(draft);
    let rng = &mut draft.rng;
    let store = rng.below(2);
    let mut tries = (0..6).map(|_| access_operands(rng));
    let mapped = tries.find(|chosen| segment(vaddr, access_of(chosen)) == Segment::Mapped);
    let [mode, wide, erl] = mapped.unwrap_or_else(|| access_operands(rng));
    draft.put("translate_via", &[vaddr, asid, store, mode, wide, erl]);
}

/// MODE, WIDE and ERL.
fn access_operands(rng: &mut Rng) -> [u64; 3] {
    [rng.pick(&[0, 0, 1, 2]), rng.pick(&[0, 1, 1]), u64::from(rng.one_in(4))]
}

/// Addresses at the limits, with any access, with and without the table.
fn segments(draft: &mut Draft) {
    let vaddr = addresses::of_segments(&mut draft.rng);
    let [mode, wide, erl] = access_operands(&mut draft.rng);
    draft.put("segment", &[vaddr, mode, wide, erl]);
    if draft.rng.one_in(4) {
        draft.put("translate_via", &[vaddr, 0, 0, mode, wide, erl]);
    }
}

/// Probes and fills of the micro-TLB that go to and fro between a few addresses.
fn micro(draft: &mut Draft) {
    let few = [matching(draft), matching(draft), address_and_asid(draft)];
    for _ in 0..3 + draft.rng.below(6) {
        let (vaddr, asid) = draft.rng.pick(&few);
        let name = draft.rng.pick(&["itlb_probe", "itlb_probe", "itlb_fill"]);
        draft.put(name, &[vaddr, asid]);
    }
    if draft.rng.one_in(6) {
        let number = addresses::entry_number(&mut draft.rng);
        draft.put("read_entry", &[number]);
        draft.put("write_entry", &[number]);
        let (vaddr, asid) = few[0];
        draft.put("itlb_probe", &[vaddr, asid]);
    }
}

/// EntryHi at an entry or near it, then the probe, then what it put into Index.
pub fn probe(draft: &mut Draft) {
    let (vaddr, asid) = address_and_asid(draft);
    let hi = vaddr & !0xFF | asid;
    draft.put("dmtc0", &[reg::ENTRY_HI.into(), hi]);
    if draft.rng.one_in(3) {
        let value = aim::value(&mut draft.rng);
        draft.put("set_hardware", &[reg::INDEX.into(), value]);
    }
    draft.put("probe", &[]);
    let name = draft.rng.pick(&["mfc0", "dmfc0"]);
    draft.put(name, &[reg::INDEX.into()]);
}

fn matches(draft: &mut Draft) {
    let (vaddr, asid) = address_and_asid(draft);
    draft.put("jtlb_has_match", &[vaddr, asid]);
    if draft.rng.one_in(4) {
        draft.put("is_shutdown", &[]);
    }
}

/// An entry into the registers, and often back into the table unchanged.
fn read_back(draft: &mut Draft) {
    let number = addresses::entry_number(&mut draft.rng);
    draft.put("read_entry", &[number]);
    for register in [reg::PAGE_MASK, reg::ENTRY_HI, reg::ENTRY_LO0, reg::ENTRY_LO1] {
        if draft.rng.one_in(3) {
            draft.put("dmfc0", &[register.into()]);
        }
    }
    if draft.rng.flag() {
        draft.put("write_entry", &[number]);
        draft.put("entry", &[number]);
    }
}

fn entries(draft: &mut Draft) {
    let number = addresses::entry_number(&mut draft.rng);
    draft.put("entry", &[number]);
}

fn sizes(draft: &mut Draft) {
    let mask = page_mask(&mut draft.rng) % (1 << 32);
    let name = draft.rng.pick(&["page_size", "pair_size"]);
    draft.put(name, &[mask]);
}

/// Any modes, widths and levels in Status, as all its other bits.
fn access(draft: &mut Draft) {
    let rng = &mut draft.rng;
    let status = rng.below(256) | aim::value(rng) << 8;
    let name = rng.pick(&["mtc0", "dmtc0", "write", "set_hardware"]);
    draft.put(name, &[reg::STATUS.into(), status]);
    draft.put("access", &[]);
}
