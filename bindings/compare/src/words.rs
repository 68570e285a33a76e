//! The original's state as words, in the binding's form.

use original::cache::{Dcache, Icache};
use original::tlb::{Entry, PageEntry, JTLB_ENTRIES};

use oracle::machine::Machine;

/// What an empty slot of the micro-TLB holds.
const EMPTY: u64 = JTLB_ENTRIES as u64;

/// The registers as stored, and the clock's six numbers.
pub fn registers(machine: &Machine) -> Vec<u64> {
    let (mut words, clock) = machine.registers();
    words.extend(clock);
    words
}

/// Four words to an entry, the micro-TLB, and the shutdown flag.
pub fn table(machine: &Machine) -> Vec<u64> {
    let entries = (0..JTLB_ENTRIES).map(|i| machine.tlb.entry(i));
    let mut words: Vec<u64> = entries.flat_map(entry).collect();
    let (slots, next) = machine.micro();
    words.extend(slots.iter().map(|slot| slot.unwrap_or(EMPTY)));
    words.extend([next, machine.tlb.is_shutdown().into()]);
    words
}

/// PageMask, EntryHi, EntryLo0 and EntryLo1.
fn entry(entry: Entry) -> [u64; 4] {
    let hi = u64::from(entry.region) << 62 | entry.vpn2 | u64::from(entry.asid);
    let lo = |half: PageEntry| {
        let flags = u64::from(half.dirty) << 2 | u64::from(half.valid) << 1;
        u64::from(half.pfn) << 6 | u64::from(half.c) << 3 | flags | u64::from(entry.global)
    };
    [entry.page_mask.into(), hi, lo(entry.lo0), lo(entry.lo1)]
}

/// All of a cache as the original's derived `Debug` tells it.
pub fn data_cache(dcache: &Dcache) -> String {
    format!("{dcache:?}")
}

/// The same of the instruction cache.
pub fn instruction_cache(icache: &Icache) -> String {
    format!("{icache:?}")
}

/// All of the binding's cache in the same words.
pub fn told<const N: usize>(name: &str, lines: &[u8], tags: &[u32]) -> String {
    let line = |(bytes, word): (&[u8], &u32)| {
        let (tag, valid, dirty) = (word & 0xF_FFFF, word >> 20 & 1 == 1, word >> 21 & 1 == 1);
        format!("Line {{ tag: {tag}, valid: {valid}, dirty: {dirty}, data: {bytes:?} }}")
    };
    let lines: Vec<String> = lines.chunks_exact(N).zip(tags).map(line).collect();
    format!("{name} {{ lines: [{}] }}", lines.join(", "))
}
