//! What every operation starts from, and a digest of what it leaves. The same for both sides.

use crate::fold::fold;
use crate::rng::Rng;
use crate::side::{ASID, Side};

/// Entries of the TLB.
pub const ENTRIES: u64 = 32;

/// Register numbers that are named here; both sides have the same.
pub use original::cop0::reg;

/// Bytes in a line, and lines, of each cache.
const D_LINE: u32 = original::cache::DCACHE_LINE;
const I_LINE: u32 = original::cache::ICACHE_LINE;
const LINES: u32 = 512;

/// Status in a game: all interrupts are enabled and unmasked, and neither EXL, ERL nor BEV is set.
const STATUS: u64 = 0x3400_FF01;

/// Where the pair of pages of an entry starts.
pub fn pair(entry: u64) -> u64 {
    0x0010_0000 + entry * 0x2000
}

/// A machine whose registers, TLB, micro-TLB and caches are all in use.
pub fn furnished<S: Side>() -> Box<S> {
    let mut machine = Box::new(S::new());
    let mut rng = Rng::new();
    for n in 0..32 {
        machine.dmtc0(n, rng.next());
    }
    fill_table(&mut *machine, &mut rng);
    fill_caches(&mut *machine, &mut rng);
    for entry in [3, 30] {
        machine.itlb_fill(pair(entry));
    }
    machine.mtc0(reg::STATUS, STATUS);
    machine.mtc0(reg::WIRED, 4);
    machine.mtc0(reg::COUNT, 0);
    machine.mtc0(reg::COMPARE, 5000);
    machine
}

/// 32 pairs of 4 KiB pages, one after another, valid and writable.
fn fill_table<S: Side>(machine: &mut S, rng: &mut Rng) {
    machine.dmtc0(reg::PAGE_MASK, 0);
    for entry in 0..ENTRIES {
        machine.dmtc0(reg::ENTRY_HI, pair(entry) | u64::from(ASID));
        machine.dmtc0(reg::ENTRY_LO0, page(rng));
        machine.dmtc0(reg::ENTRY_LO1, page(rng));
        machine.write_entry(entry as usize);
    }
}

/// EntryLo of a page at some frame: cached, dirty and valid.
fn page(rng: &mut Rng) -> u64 {
    (rng.next() & 0xF_FFFF) << 6 | 3 << 3 | 0b110
}

/// Each line holds the address of its own number.
fn fill_caches<S: Side>(machine: &mut S, rng: &mut Rng) {
    for line in 0..LINES {
        machine.d_install(line * D_LINE, bytes(rng));
        machine.i_install(line * I_LINE, bytes(rng));
    }
}

fn bytes<const N: usize>(rng: &mut Rng) -> [u8; N] {
    let mut bytes = [0; N];
    for word in bytes.chunks_exact_mut(8) {
        word.copy_from_slice(&rng.next().to_be_bytes());
    }
    bytes
}

/// All that an operation can have changed, as the operations tell it.
pub fn digest<S: Side>(machine: &mut S) -> u64 {
    let mut sum = u64::from(machine.interrupt_pending());
    for n in 0..32 {
        sum = fold(sum, machine.dmfc0(n));
    }
    for line in 0..LINES {
        let addr = line * D_LINE;
        sum = fold(sum, machine.d_read(addr, 8));
        sum = fold(sum, machine.d_read(addr + 8, 8));
        sum = fold(sum, machine.d_load_tag(addr).into());
    }
    fold(sum, table_digest(machine))
}

/// The table through TLBR, and the micro-TLB through its probe.
fn table_digest<S: Side>(machine: &mut S) -> u64 {
    let mut sum = 0;
    for entry in 0..ENTRIES {
        machine.read_entry(entry as usize);
        for n in [reg::PAGE_MASK, reg::ENTRY_HI, reg::ENTRY_LO0, reg::ENTRY_LO1] {
            sum = fold(sum, machine.dmfc0(n));
        }
        sum = fold(sum, machine.itlb_probe(pair(entry)).into());
    }
    sum
}
