//! Traces that go through all of something about the caches.

use original::cache::{DCACHE_LINE, DCACHE_LINES, ICACHE_LINE, ICACHE_LINES};

use crate::aim;
use crate::caches::{d_index, i_index};
use crate::draft::Draft;

/// Two words of sixteen different bytes.
const WORDS: [u64; 2] = [0x0123_4567_89AB_CDEF, 0x1032_5476_98BA_DCFE];

/// States of a stored tag: a valid line's in the data cache, and in the instruction cache.
const D_VALID: u64 = 3 << 6;
const I_VALID: u64 = 2 << 6;

fn d_install(draft: &mut Draft, addr: u64) {
    draft.put("d_install", &[addr, WORDS[0] ^ addr, WORDS[1] ^ addr]);
}

fn i_install(draft: &mut Draft, addr: u64) {
    let [a, b] = WORDS.map(|word| word ^ addr);
    draft.put("i_install", &[addr, a, b, !a, !b]);
}

/// The line of an address in the data cache, as it is stored.
fn d_line(draft: &mut Draft, addr: u64) {
    draft.put("d_line", &[d_index(addr)]);
}

fn i_line(draft: &mut Draft, addr: u64) {
    draft.put("i_line", &[i_index(addr)]);
}

/// Each offset with each length up to 9 and some long ones, written to a clean line and read.
pub fn every_length(draft: &mut Draft) {
    const LONG: [u64; 7] = [10, 16, 17, 0x101, 1 << 32, 1 << 63, u64::MAX];
    for addr in 0xFFFF_FFE0..0xFFFF_FFF0 {
        for length in (0..10).chain(LONG) {
            d_install(draft, addr);
            draft.put("d_read", &[addr, length]);
            draft.put("d_write", &[addr, length, 0xA1B2_C3D4_E5F6_0718]);
            d_line(draft, addr);
            draft.put("d_read", &[addr, length]);
        }
    }
}

/// Each offset of a word, in the first lines and in the last ones.
pub fn every_word(draft: &mut Draft) {
    for first in [0, 0x1000 - 0x20, 0xFFFF_FFC0] {
        for addr in [first, first + 0x20] {
            i_install(draft, addr);
        }
        for addr in first..first + 0x40 {
            draft.put("i_read_word", &[addr]);
        }
    }
}

/// Each bit of a written value, at each length, over bytes that are all set and all clear.
pub fn every_value_bit(draft: &mut Draft) {
    for length in 1..=8 {
        for before in [0, u64::MAX] {
            draft.put("d_install", &[0, before, before]);
            for value in aim::bits() {
                draft.put("d_write", &[4, length, value]);
                draft.put("d_read", &[4, 8]);
            }
            d_line(draft, 0);
        }
    }
}

/// An address for each line of a cache, each with a tag of its own.
fn apart(lines: usize, size: u32) -> Vec<u64> {
    (0..lines as u64).map(|index| index * (lines as u64 + 1) * u64::from(size)).collect()
}

/// Each line of the data cache with a tag and bytes of its own; then each one changed in all ways,
/// and its neighbours kept.
pub fn every_data_line(draft: &mut Draft) {
    let addrs = apart(DCACHE_LINES, DCACHE_LINE);
    for addr in &addrs {
        d_install(draft, *addr);
    }
    for (index, addr) in (0..).zip(&addrs) {
        draft.put("d_hits", &[*addr]);
        draft.put("d_line", &[index + 512]);
        draft.put("d_write", &[*addr + 1, 3, !index]);
        draft.put("d_flush_index", &[*addr, 0, 0]);
        draft.put("d_create_dirty_exclusive", &[*addr ^ 1 << 31]);
        draft.put("d_store_tag", &[*addr, !index << 8 & 0xFFF_FF00]);
        draft.put("d_load_tag", &[*addr]);
    }
    for index in 0..DCACHE_LINES as u64 {
        draft.put("d_line", &[index << 54 | index]);
    }
}

/// The same of the instruction cache.
pub fn every_instruction_line(draft: &mut Draft) {
    let addrs = apart(ICACHE_LINES, ICACHE_LINE);
    for addr in &addrs {
        i_install(draft, *addr);
    }
    for (index, addr) in (0..).zip(&addrs) {
        draft.put("i_hits", &[*addr]);
        draft.put("i_line", &[index + 512]);
        draft.put("i_read_word", &[*addr + 0x1C]);
        draft.put("i_flush_hit", &[*addr]);
        let name = ["i_hit_invalidate", "i_invalidate_index"][index as usize % 2];
        draft.put(name, &[*addr]);
        draft.put("i_load_tag", &[*addr]);
    }
    for index in 0..ICACHE_LINES as u64 {
        draft.put("i_line", &[index << 54 | index]);
    }
}

/// Each bit of an address turned over, against a line that holds the address: all that is asked,
/// and all that is done, of the one and the other.
pub fn every_address_bit(draft: &mut Draft) {
    for addr in [0, 0x5A5A_5A50, 0xFFFF_FFF0] {
        for bit in 0..32 {
            let other = addr ^ 1 << bit;
            on_data(draft, addr, other);
            on_instructions(draft, addr, other);
        }
    }
}

fn on_data(draft: &mut Draft, addr: u64, other: u64) {
    d_install(draft, addr);
    draft.put("d_write", &[addr, 1, 0x77]);
    for name in ["d_hits", "d_miss_plan", "d_load_tag"] {
        draft.put(name, &[other]);
    }
    draft.put("d_read", &[other, 1]);
    draft.put("d_create_dirty_exclusive", &[other]);
    d_line(draft, addr);
    d_line(draft, other);
    draft.put("d_flush_index", &[other, 1, 0]);
    d_line(draft, addr);
    draft.put("d_store_tag", &[other, D_VALID]);
    d_line(draft, addr);
}

fn on_instructions(draft: &mut Draft, addr: u64, other: u64) {
    i_install(draft, addr);
    for name in ["i_hits", "i_load_tag", "i_flush_hit", "i_read_word", "i_hit_invalidate"] {
        draft.put(name, &[other]);
        i_line(draft, addr);
    }
    i_install(draft, addr);
    draft.put("i_invalidate_index", &[other]);
    i_line(draft, addr);
    draft.put("i_store_tag", &[other, I_VALID]);
    i_line(draft, addr);
    i_line(draft, other);
}

/// Each bit of a stored tag, alone and missing alone, with each state; where the line then is.
pub fn every_tag_bit(draft: &mut Draft) {
    const ADDR: u64 = 0x1FE0;
    for value in aim::bits().map(|value| value % (1 << 32)) {
        for state in 0..4 {
            let tag_lo = value & !0xC0 | state << 6;
            draft.put("d_store_tag", &[ADDR, tag_lo]);
            draft.put("d_load_tag", &[ADDR]);
            draft.put("d_write", &[ADDR, 4, value]);
            draft.put("d_flush_index", &[ADDR, 0, 1]);
            d_line(draft, ADDR);
            draft.put("i_store_tag", &[ADDR, tag_lo]);
            draft.put("i_load_tag", &[ADDR]);
            draft.put("i_flush_hit", &[tag_lo >> 8 << 12 & 0xFFFF_C000 | ADDR]);
            i_line(draft, ADDR);
        }
    }
}

/// Each operation on each state of a line, at the address that the line holds and at another.
pub fn every_data_state(draft: &mut Draft) {
    const ADDR: u64 = 0x4_3210;
    let operations: [(&str, &[u64]); 16] = [
        ("d_hits", &[]),
        ("d_miss_plan", &[]),
        ("d_install", &WORDS),
        ("d_read", &[8]),
        ("d_read", &[0]),
        ("d_write", &[8, 0x1122_3344_5566_7788]),
        ("d_write", &[9, 0x1122_3344_5566_7788]),
        ("d_load_tag", &[]),
        ("d_store_tag", &[0x4300]),
        ("d_store_tag", &[0x43C0]),
        ("d_flush_index", &[0, 0]),
        ("d_flush_index", &[0, 1]),
        ("d_flush_index", &[1, 0]),
        ("d_flush_index", &[1, 1]),
        ("d_create_dirty_exclusive", &[]),
        ("new", &[]),
    ];
    for (name, operands) in operations {
        for (state, addr) in each_state(ADDR) {
            d_install(draft, ADDR);
            let pstate = if state & 1 == 0 { 0 } else { D_VALID };
            draft.put("d_store_tag", &[ADDR, ADDR >> 12 << 8 | pstate]);
            if state & 2 != 0 {
                draft.put("d_write", &[ADDR, 2, 0xFFFF]);
            }
            put_at(draft, name, addr, operands);
            d_line(draft, ADDR);
        }
    }
}

/// The same of the instruction cache, in which no line is dirty.
pub fn every_instruction_state(draft: &mut Draft) {
    const ADDR: u64 = 0x4_3220;
    let operations: [(&str, &[u64]); 11] = [
        ("i_hits", &[]),
        ("i_install", &[1, 2, 3, 4]),
        ("i_read_word", &[]),
        ("i_load_tag", &[]),
        ("i_store_tag", &[0x4300]),
        ("i_store_tag", &[0x4380]),
        ("i_store_tag", &[0x43C0]),
        ("i_invalidate_index", &[]),
        ("i_hit_invalidate", &[]),
        ("i_flush_hit", &[]),
        ("new", &[]),
    ];
    for (name, operands) in operations {
        for (state, addr) in each_state(ADDR) {
            i_install(draft, ADDR);
            if state & 1 == 0 {
                draft.put("i_invalidate_index", &[ADDR]);
            }
            put_at(draft, name, addr, operands);
            i_line(draft, ADDR);
        }
    }
}

/// Bits for valid and dirty, with an address and with another that has the same line.
fn each_state(addr: u64) -> impl Iterator<Item = (u64, u64)> {
    (0..4).flat_map(move |state| [(state, addr), (state, addr ^ 1 << 20)])
}

/// An operation at an address, with the operands after it; `new` has no address.
fn put_at(draft: &mut Draft, name: &str, addr: u64, operands: &[u64]) {
    if name == "new" {
        draft.put(name, &[]);
    } else {
        draft.put(name, &[&[addr], operands].concat());
    }
}
