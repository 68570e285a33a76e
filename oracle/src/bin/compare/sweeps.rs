//! Traces that go through all of something; they don't depend on the seed.

use original::cop0::reg;

use crate::draft::{Draft, Dress};
use crate::rng::Rng;
use crate::{addresses, aim, cache_sweeps, exception_sweeps, exceptions};

/// Those of one trace.
const SINGLE: [fn(&mut Draft); 24] = [
    every_number,
    every_interrupt,
    every_edge,
    every_segment,
    every_access,
    every_field,
    every_half,
    every_entry,
    every_compared_bit,
    exception_sweeps::every_vector,
    exception_sweeps::every_cause_bit,
    exception_sweeps::every_address_bit,
    exception_sweeps::every_nesting,
    exception_sweeps::every_nmi,
    exception_sweeps::every_return,
    cache_sweeps::every_length,
    cache_sweeps::every_word,
    cache_sweeps::every_value_bit,
    cache_sweeps::every_data_line,
    cache_sweeps::every_instruction_line,
    cache_sweeps::every_address_bit,
    cache_sweeps::every_tag_bit,
    cache_sweeps::every_data_state,
    cache_sweeps::every_instruction_state,
];

/// How many traces a sweep has, and what makes the trace of a number.
type Several = (u64, fn(&mut Draft, u64));

/// Those of several traces.
fn several() -> [Several; 4] {
    const WIRED_VALUES: u64 = 64;
    const REGISTERS: u64 = 32;
    // The upper six bits of a page mask; a trace goes through the lower six.
    const UPPER_MASKS: u64 = 64;
    let exceptions = exceptions::all().len() as u64;
    [
        (WIRED_VALUES, every_walk),
        (REGISTERS, every_bit),
        (UPPER_MASKS, every_mask),
        (exceptions, exception_sweeps::every_taking),
    ]
}

/// The sweep of a number, as long as there are any.
pub fn sweep(number: u64) -> Option<Vec<u8>> {
    let mut draft = Draft::new(Rng::new(0, number), Dress::Plain);
    if let Some(sweep) = SINGLE.get(number as usize) {
        sweep(&mut draft);
        return Some(draft.finish());
    }
    let mut left = number - SINGLE.len() as u64;
    for (traces, sweep) in several() {
        if left < traces {
            sweep(&mut draft, left);
            return Some(draft.finish());
        }
        left -= traces;
    }
    None
}

/// Each bit of a register alone and each missing alone, by each way of writing.
fn every_bit(draft: &mut Draft, register: u64) {
    for value in aim::bits() {
        for name in ["mtc0", "dmtc0", "write", "set_hardware"] {
            draft.put(name, &[register, value]);
            draft.put("mfc0", &[register]);
            draft.put("dmfc0", &[register]);
        }
    }
}

/// Each Random under one Wired, stepped to where the walk turns.
fn every_walk(draft: &mut Draft, wired: u64) {
    draft.put("set_hardware", &[reg::WIRED.into(), wired]);
    for random in 0..64 {
        let (walk, cycle) = aim::walk_and_cycle(random, wired);
        for steps in [0, 1, walk, walk + 1, walk + cycle, walk + cycle + 1] {
            draft.put("set_hardware", &[reg::RANDOM.into(), random]);
            draft.put("tick_random_by", &[steps]);
            draft.put("read", &[reg::RANDOM.into()]);
        }
    }
}

/// Each 8-bit number where one is taken.
fn every_number(draft: &mut Draft) {
    for number in 0..256 {
        for name in ["from_rs", "is_wide", "is_unused", "mfc0", "dmfc0", "read"] {
            draft.put(name, &[number]);
        }
        draft.put("mtc0", &[number, !number]);
        draft.put("dmtc0", &[number, !number]);
        draft.put("set_ip", &[number, number >> 3 & 1]);
        draft.put("read", &[number]);
    }
}

/// Each pending bit against each mask bit, under each of IE, EXL and ERL.
fn every_interrupt(draft: &mut Draft) {
    for status in 0..8 {
        for mask in 0..8 {
            draft.put("write", &[reg::STATUS.into(), 1 << (8 + mask) | status]);
            for bit in 0..8 {
                draft.put("set_ip", &[bit, 1]);
                draft.put("interrupt_pending", &[]);
                draft.put("set_ip", &[bit, 0]);
            }
        }
    }
}

/// Small advances from near Compare, wherever Compare is, and the longest ones.
fn every_edge(draft: &mut Draft) {
    const MOST: u64 = 0xFFFF_FFFF;
    for compare in [0, 1, 7, 0x7FFF_FFFF, 0x8000_0000, MOST] {
        draft.put("mtc0", &[reg::COMPARE.into(), compare]);
        for behind in 0..7_u64 {
            for counts in [0, 1, 2, 3, 4, MOST - 2, MOST - 1, MOST] {
                let count = (compare + 3).wrapping_sub(behind) & MOST;
                draft.put("mtc0", &[reg::COUNT.into(), count]);
                draft.put("advance", &[counts, 0]);
                draft.put("advance", &[1, 0]);
                draft.put("count_ticks_until_timer_match", &[]);
            }
        }
    }
}

/// Each segment's limits and their neighbours, in each mode and width, with and without ERL.
fn every_segment(draft: &mut Draft) {
    for limit in addresses::limits() {
        for vaddr in [limit.wrapping_sub(1), limit, limit + 1] {
            for access in 0..12 {
                let (mode, wide, erl) = (access / 4, access / 2 % 2, access % 2);
                draft.put("segment", &[vaddr, mode, wide, erl]);
                draft.put("translate_via", &[vaddr, 0, 0, mode, wide, erl]);
            }
        }
    }
}

/// Each mode, width and level of Status, and each of its bits.
fn every_access(draft: &mut Draft) {
    for status in (0..256).chain(aim::bits()) {
        draft.put("set_hardware", &[reg::STATUS.into(), status]);
        draft.put("access", &[]);
    }
}

/// Each bit of the registers that an entry is written from, alone and missing alone, into an entry
/// and back; the entries' numbers go on over 31.
fn every_field(draft: &mut Draft) {
    let mut number = 0;
    for register in [reg::ENTRY_HI, reg::PAGE_MASK, reg::ENTRY_LO0, reg::ENTRY_LO1] {
        for value in aim::bits() {
            number += 1;
            draft.put("dmtc0", &[register.into(), value]);
            draft.put("write_entry", &[number]);
            draft.put("entry", &[number % 32]);
            draft.put("read_entry", &[number]);
            draft.put("dmfc0", &[register.into()]);
        }
    }
}

/// Each C, D, V and G of both halves, against loads and stores, an equal ASID and another.
fn every_half(draft: &mut Draft) {
    draft.put("dmtc0", &[reg::ENTRY_HI.into(), 0x12_3456_6055]);
    for bits in 0..128 {
        let (even, odd) = (bits & 0x3F, bits >> 6 | (!bits & 0x3E));
        draft.put("mtc0", &[reg::ENTRY_LO0.into(), 0x155_5540 | even]);
        draft.put("mtc0", &[reg::ENTRY_LO1.into(), 0x2AA_AA80 | odd]);
        draft.put("write_entry", &[31]);
        for access in 0..8 {
            let vaddr = 0x12_3456_6ABC | (access & 1) << 12;
            draft.put("lookup", &[vaddr, 0x55 ^ (access >> 1 & 1), access >> 2]);
        }
    }
}

/// Each entry in turn as the one that answers, by either half, in every mode, and beside it the
/// addresses that need no entry; then each as the second that matches.
fn every_entry(draft: &mut Draft) {
    let pair = |number: u64| 0x10_0000 + number * 0x2000;
    draft.put("mtc0", &[reg::ENTRY_LO0.into(), 0x7E]);
    draft.put("mtc0", &[reg::ENTRY_LO1.into(), 0x96]);
    for number in 0..32 {
        draft.put("dmtc0", &[reg::ENTRY_HI.into(), pair(number)]);
        draft.put("write_entry", &[number]);
    }
    for number in 0..32 {
        for vaddr in [pair(number), pair(number) + 0x1FFF] {
            draft.put("lookup", &[vaddr, 0, 1]);
            for access in 0..12 {
                let (mode, wide, erl) = (access / 4, access / 2 % 2, access % 2);
                draft.put("translate_via", &[vaddr, 0, 1, mode, wide, erl]);
            }
            draft.put("translate_via", &[0xFFFF_FFFF_8000_0000 | vaddr, 0, 1, 0, 0, 0]);
        }
    }
    for number in 0..32 {
        draft.put("new", &[]);
        draft.put("mtc0", &[reg::ENTRY_LO0.into(), 0x7E]);
        draft.put("mtc0", &[reg::ENTRY_HI.into(), 0x4000]);
        draft.put("write_entry", &[16]);
        draft.put("write_entry", &[number]);
        draft.put("lookup", &[0x4000, 0, 1]);
        draft.put("is_shutdown", &[]);
    }
}

/// Each bit of an address that an entry matches, and of its ASID, turned over; in each region.
fn every_compared_bit(draft: &mut Draft) {
    draft.put("mtc0", &[reg::ENTRY_LO0.into(), 0x1F]);
    draft.put("mtc0", &[reg::PAGE_MASK.into(), 0x6000]);
    for region in 0..4 {
        let vaddr = region << 62 | 0x5A_A55A_0000;
        draft.put("dmtc0", &[reg::ENTRY_HI.into(), vaddr | 0xC3]);
        draft.put("write_entry", &[region]);
        for bit in 0..64 {
            let vaddr = vaddr ^ 1 << bit;
            draft.put("lookup", &[vaddr, 0xC3, 0]);
            draft.put("itlb_fill", &[vaddr, 0xC3]);
            draft.put("itlb_probe", &[vaddr, 0xC3]);
        }
        for bit in 0..8 {
            draft.put("jtlb_has_match", &[vaddr, 0xC3 ^ 1 << bit]);
        }
    }
}

/// Each page mask with the same upper bits: what is stored, its sizes, and addresses under it.
fn every_mask(draft: &mut Draft, upper: u64) {
    const VADDR: u64 = 0x1A_A55A_A555;
    draft.put("dmtc0", &[reg::ENTRY_HI.into(), VADDR]);
    draft.put("mtc0", &[reg::ENTRY_LO0.into(), 0x2AA_AA9F]);
    draft.put("mtc0", &[reg::ENTRY_LO1.into(), 0x155_5557]);
    for lower in 0..64 {
        let mask = (upper << 6 | lower) << 13;
        draft.put("mtc0", &[reg::PAGE_MASK.into(), mask]);
        draft.put("write_entry", &[7]);
        draft.put("entry", &[7]);
        draft.put("page_size", &[mask]);
        draft.put("pair_size", &[mask]);
        let entry = draft.machine.tlb.entry(7);
        for _ in 0..4 {
            let vaddr = addresses::inside(&mut draft.rng, &entry);
            draft.put("lookup", &[vaddr, 0x55, 1]);
            let vaddr = vaddr ^ 1 << (12 + draft.rng.below(16));
            draft.put("lookup", &[vaddr, 0x55, 0]);
        }
    }
}
