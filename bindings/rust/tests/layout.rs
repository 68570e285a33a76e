//! What crosses is where both sides think it is: sizes and offsets as numbers, counted by C's rules
//! from the structs of `crates/rimjhodek/src`, and each field through the library and back.

use std::mem::{align_of, offset_of, size_of};

use rimjhodek::addr::{Access, Mode};
use rimjhodek::cop0::{ARCH_MASK, Cop0, reg, word};
use rimjhodek::ffi::{
    self, By, DataLine, DataPlan, Eviction, Exc, Flag, Granted, InstructionLine, Looked, Number,
    Plan, Reached, Taken,
};
use rimjhodek::tlb::{self, Entry, PageEntry, Tlb};

/// A struct's size, and the offsets of its fields in their order.
macro_rules! layout {
    ($of:ty, $size:literal, $($field:ident = $offset:literal),+) => {
        assert_eq!(size_of::<$of>(), $size, "size of {}", stringify!($of));
        $(assert_eq!(
            offset_of!($of, $field), $offset, "{}.{}", stringify!($of), stringify!($field)
        );)+
    };
}

#[test]
fn sizes_and_offsets() {
    layout!(Flag, 2, refused = 0, is = 1);
    layout!(Number, 16, refused = 0, value = 8);
    layout!(Looked, 8, error = 0, uncached = 1, entry = 2, addr = 4);
    layout!(Granted, 4, refused = 0, mode = 1, wide = 2, erl = 3);
    layout!(Reached, 8, refused = 0, kind = 1, cached = 2, addr = 4);
    layout!(Exc, 4, number = 0, store = 1, wide = 2, unit = 3);
    layout!(Taken, 16, refused = 0, stall_cycles = 4, vector = 8);
    layout!(Plan, 8, refused = 0, plan = 1, addr = 4);
    layout!(Eviction, 8, refused = 0, evict = 1, addr = 4);
    layout!(DataPlan, 24, plan = 0, data = 8);
    layout!(DataLine, 24, eviction = 0, data = 8);
    layout!(InstructionLine, 40, eviction = 0, data = 8);
}

/// In C it has 3 bytes. `By` takes an access over as it is.
#[test]
fn an_access_has_one_byte_more_than_it_needs() {
    layout!(By, 4, mode = 0, wide = 1, erl = 2);
    layout!(Access, 4, mode = 0, wide = 1, erl = 2);
    assert_eq!((align_of::<By>(), align_of::<Access>()), (4, 4));
    for (number, mode) in (0..).zip([Mode::Kernel, Mode::Supervisor, Mode::User]) {
        for (wide, erl) in [(false, false), (false, true), (true, false), (true, true)] {
            let by = By { mode: number, wide, erl };
            assert_eq!(By::from(Access { mode, wide, erl }), by);
        }
    }
}

/// Registers that are each another, with Random above Wired; each byte of the clock is another too.
fn registers() -> Cop0 {
    let mut words = std::array::from_fn(|n| 0xA0B0_C0D0_0000_0000 + 0x0101 * n as u64);
    words[usize::from(reg::RANDOM)] = 5;
    words[usize::from(reg::WIRED)] = 2;
    words[word::NOW] = 0x0102_0304_0506_0708;
    words[word::EPOCH_COUNT] = 0x1112_1314;
    words[word::EPOCH_NOW] = 0x2122_2324_2526_2728;
    words[word::LAST_COUNT] = 0x3132_3334;
    words[word::EC] = 0x41;
    words[word::LATCH] = 0x5152_5354_5556_5758;
    Cop0 { words }
}

/// Count of those words: 0x1112_1314 + 0x0506_0708 - 0x2526_2728, modulo 2^32.
const COUNT: u32 = 0xF0F1_F2F4;

#[test]
fn the_clock_is_lent_in_order() {
    let mut cop0 = registers();
    assert_eq!(cop0.count(), COUNT);
    assert_eq!(cop0.count_now(), 0x0102_0304_0506_0708);
    assert_eq!(cop0.read(7), 0x5152_5354_5556_5758);
    cop0.words[usize::from(reg::CONFIG)] = 0;
    assert_eq!(cop0.read(reg::CONFIG), 0x4_1006_6460);
    cop0.words[usize::from(reg::COMPARE)] = 0;
    let to_zero = u64::from(0x3132_3334_u32.wrapping_neg());
    assert_eq!(cop0.count_ticks_until_timer_match(), to_zero);
    cop0.set_now(0x0102_0304_0506_0709);
    assert_eq!(cop0.count(), COUNT + 1);
}

#[test]
fn registers_are_lent_in_order() {
    let cop0 = registers();
    for n in (0..32).filter(|n| ![reg::COUNT, reg::CONFIG].contains(n)) {
        let at = usize::from(n);
        let unused = Cop0::UNUSED.contains(&n);
        let stored = cop0.words[at] & ARCH_MASK[at];
        assert_eq!(cop0.read(n), if unused { cop0.words[word::LATCH] } else { stored });
    }
}

#[test]
fn an_edge_comes_out() {
    let mut cop0 = registers();
    cop0.words[usize::from(reg::COMPARE)] = u64::from(COUNT) + 2;
    cop0.words[word::LAST_COUNT] = COUNT.into();
    let mut expected = cop0.clone();
    expected.words[word::NOW] += 3;
    expected.words[word::LAST_COUNT] += 3;
    expected.words[usize::from(reg::RANDOM)] = 4;
    expected.words[usize::from(reg::CAUSE)] |= 1 << 15;
    let edge = ffi::rimjhodek_advance(&mut cop0.words, 3, 1);
    assert_eq!(edge, Flag { refused: 0, is: true });
    assert_eq!(cop0, expected);
    let none = ffi::rimjhodek_advance(&mut cop0.words, 3, 1);
    assert_eq!(none, Flag { refused: 0, is: false });
}

#[test]
fn the_timer_is_asked() {
    for (compare, edge) in [(COUNT, true), (0x3132_3334, false)] {
        let mut cop0 = registers();
        cop0.words[usize::from(reg::COMPARE)] = compare.into();
        let mut expected = cop0.clone();
        expected.words[word::LAST_COUNT] = COUNT.into();
        assert_eq!(ffi::rimjhodek_timer_edge(&mut cop0.words), edge);
        assert_eq!(cop0, expected);
    }
}

/// Address 0x1_2000 in address space 7, by entry 5: to 0xABCDE000, uncached; to 0x12345000, cached,
/// one page on.
fn table() -> Tlb {
    let mut tlb = Tlb::new();
    tlb.words[20..24].copy_from_slice(&[
        0,
        0x1_2000 | 7,
        0xABCDE << 6 | 2 << 3 | 0b110,
        0x12345 << 6 | 3 << 3 | 0b010,
    ]);
    tlb
}

/// A table with these micro-TLB and shutdown words.
fn table_with(micro: [u64; 4]) -> Tlb {
    let mut tlb = table();
    tlb.words[tlb::word::SLOT0..].copy_from_slice(&micro);
    tlb
}

#[test]
fn the_micro_tlb_is_lent_in_order() {
    // An address that no entry matches: all stays as it was.
    for micro in [[9, 5, 0, 0], [5, 9, 1, 1], [32, 255, 200, 0]] {
        let mut tlb = table_with(micro);
        tlb.itlb_fill(0x4_0000, 7);
        assert_eq!(tlb, table_with(micro));
    }
    // One that entry 5 matches.
    let mut tlb = table_with([9, 8, 0, 0]);
    tlb.itlb_fill(0x1_2000, 7);
    assert_eq!(tlb, table_with([5, 8, 1, 0]));
    for (slots, hit, next) in [([5, 9], true, 1), ([9, 5], true, 0), ([9, 8], false, 77)] {
        let mut tlb = table_with([slots[0], slots[1], 77, 0]);
        assert_eq!(tlb.itlb_probe(0x1_2000, 7), hit);
        assert_eq!(tlb, table_with([slots[0], slots[1], next, 0]));
    }
    assert!(table_with([9, 5, 0, 0]).jtlb_has_match(0x1_2000, 7));
    assert!(!table_with([9, 5, 0, 1]).jtlb_has_match(0x1_2000, 7));
}

#[test]
fn looked_comes_out() {
    let mut tlb = table();
    let mut look = |vaddr, store| ffi::rimjhodek_lookup(&mut tlb.words, vaddr, 7, store);
    let even = Looked { error: 0, uncached: true, entry: 5, addr: 0xABCD_E678 };
    let odd = Looked { error: 0, uncached: false, entry: 5, addr: 0x1234_5678 };
    assert_eq!(look(0x1_2678, true), even);
    assert_eq!(look(0x1_3678, false), odd);
    let fault = |error| Looked { error, uncached: false, entry: 0, addr: 0 };
    assert_eq!(look(0x4_0000, false), fault(1));
    assert_eq!(look(0x1_3678, true), fault(3));
    let user = By { mode: 2, wide: false, erl: false };
    let refused = ffi::rimjhodek_translate_via(&mut tlb.words, 0x8000_0000, 7, false, user);
    assert_eq!(refused, fault(4));
    let direct = By { mode: 0, wide: false, erl: true };
    let reached = ffi::rimjhodek_translate_via(&mut tlb.words, 0x1_2678, 7, true, direct);
    assert_eq!(reached, Looked { error: 0, uncached: true, entry: 32, addr: 0x1_2678 });
    assert_eq!(tlb, table());
}

#[test]
fn an_entry_is_four_words() {
    let mut tlb = Tlb::new();
    tlb.words[12..16].copy_from_slice(&[
        0x0123_4567,
        0x8000_0089_ABCD_E0EF,
        0xABCDE << 6 | 5 << 3 | 0b101,
        0x12345 << 6 | 3 << 3 | 0b010,
    ]);
    let even = PageEntry { pfn: 0xABCDE, c: 5, dirty: true, valid: false };
    let odd = PageEntry { pfn: 0x12345, c: 3, dirty: false, valid: true };
    let entry = Entry {
        page_mask: 0x0123_4567,
        // Without the bits under the mask.
        vpn2: 0x89_ABCD_E000 & !0x0123_4567,
        asid: 0xEF,
        global: true,
        region: 2,
        lo0: even,
        lo1: odd,
    };
    assert_eq!(tlb.entry(3), entry);
    tlb.words[14] -= 1;
    assert!(!tlb.entry(35).global);
}

#[test]
fn access_goes_in() {
    let kind = |vaddr, mode, wide, erl| ffi::rimjhodek_segment(vaddr, By { mode, wide, erl }).kind;
    for wide in [false, true] {
        for erl in [false, true] {
            let kinds = |vaddr| [0, 1, 2].map(|mode| kind(vaddr, mode, wide, erl));
            assert_eq!(kinds(0xFFFF_FFFF_8000_0000), [0, 2, 2]);
            assert_eq!(kinds(0xFFFF_FFFF_C000_0000), [1, 1, 2]);
        }
    }
    for mode in 0..3 {
        for flag in [false, true] {
            assert_eq!(kind(0x8000_0000, mode, false, flag), 2);
            assert_eq!(kind(0x8000_0000, mode, true, flag), 1);
            assert_eq!(kind(0x1000, mode, flag, false), 1);
            assert_eq!(kind(0x1000, mode, flag, true), 0);
        }
    }
}

#[test]
fn granted_comes_out() {
    let granted = |mode, wide, erl| Granted { refused: 0, mode, wide, erl };
    for (ksu, width) in [(0, 7), (1, 6), (2, 5)] {
        for wide in [false, true] {
            let status = ksu << 3 | u64::from(wide) << width;
            assert_eq!(ffi::rimjhodek_from_status(status), granted(ksu as u8, wide, false));
            // By the kernel, whose width is a bit of its own.
            let kernel = granted(0, wide && ksu == 0, true);
            assert_eq!(ffi::rimjhodek_from_status(status | 1 << 2), kernel);
        }
    }
    let none = Granted { refused: 4, ..granted(0, false, false) };
    assert_eq!(ffi::rimjhodek_from_status(3 << 3 | 0xE0), none);
}

#[test]
fn reached_comes_out() {
    let kernel = By { mode: 0, wide: false, erl: false };
    let reach = |vaddr| ffi::rimjhodek_segment(vaddr, kernel);
    let cached = Reached { refused: 0, kind: 0, cached: true, addr: 0x1234_5678 };
    let not = |kind| Reached { refused: 0, kind, cached: false, addr: 0 };
    assert_eq!(reach(0xFFFF_FFFF_9234_5678), cached);
    assert_eq!(reach(0xFFFF_FFFF_B234_5678), Reached { cached: false, ..cached });
    assert_eq!(reach(0x1234_5678), not(1));
    assert_eq!(reach(0x8000_0000), not(2));
}

#[test]
fn exception_goes_in() {
    let codes = [0, 4, 12, 8, 9, 13, 10, 10, 11, 0, 2, 2, 1, 15];
    for (number, code) in (0..).zip(codes) {
        for wide in [false, true] {
            let exc = |store| Exc { number, store, wide, unit: 0xFF };
            let stores = u64::from([1, 10, 11].contains(&number));
            let told = |value| Number { refused: 0, value };
            assert_eq!(ffi::rimjhodek_exc_code_of(exc(false)), told(code));
            assert_eq!(ffi::rimjhodek_exc_code_of(exc(true)), told(code + stores));
        }
    }
    let refill = |wide: bool| Exc { number: 10, store: !wide, wide, unit: 1 };
    assert_eq!(ffi::rimjhodek_vector_kind_of(refill(false)), Number { refused: 0, value: 1 });
    assert_eq!(ffi::rimjhodek_vector_kind_of(refill(true)), Number { refused: 0, value: 2 });
    assert_eq!(ffi::rimjhodek_writes_bad_vaddr(refill(true)), Flag { refused: 0, is: true });
    for unit in 0..4 {
        let mut words = [0; 38];
        let exc = Exc { number: 8, store: true, wide: true, unit };
        ffi::rimjhodek_dispatch(&mut words, exc, 0, false, 0);
        assert_eq!(words[usize::from(reg::CAUSE)], u64::from(unit) << 28 | 11 << 2);
    }
}

#[test]
fn taken_comes_out() {
    let mut words = [0; 38];
    let syscall = Exc { number: 3, store: false, wide: false, unit: 0 };
    let general = Taken { refused: 0, stall_cycles: 2, vector: 0xFFFF_FFFF_8000_0180 };
    assert_eq!(ffi::rimjhodek_dispatch(&mut words, syscall, 0, false, 0), general);
    let reset = Taken { refused: 0, stall_cycles: 2, vector: 0xFFFF_FFFF_BFC0_0000 };
    assert_eq!(ffi::rimjhodek_nmi(&mut words, 0), reset);
}

/// An address, and its line in either cache.
const ADDR: u32 = 0x1234_5678;

/// Bytes that are each another.
fn bytes<const N: usize>(from: u8) -> [u8; N] {
    std::array::from_fn(|i| from + i as u8)
}

/// A data cache that holds the line of ADDR, dirty.
fn data() -> (Vec<u8>, Vec<u32>) {
    let (mut lines, mut tags) = (vec![0; 8192], vec![0; 512]);
    assert_eq!(ffi::rimjhodek_dcache_install(&mut lines, &mut tags, ADDR, &bytes(0x10)), 0);
    assert_eq!(ffi::rimjhodek_dcache_write(&mut lines, &mut tags, ADDR, 1, 0x18), 0);
    (lines, tags)
}

#[test]
fn flag_and_number_come_out() {
    let (lines, tags) = data();
    assert_eq!(ffi::rimjhodek_dcache_hits(&tags, ADDR), Flag { refused: 0, is: true });
    assert_eq!(ffi::rimjhodek_dcache_hits(&tags, 0), Flag { refused: 0, is: false });
    assert_eq!(ffi::rimjhodek_dcache_hits(&tags[1..], ADDR), Flag { refused: 1, is: false });
    let whole: &[u32; 512] = tags[..].try_into().unwrap();
    assert!(ffi::rimjhodek_dcache_hit(whole, ADDR));
    assert!(!ffi::rimjhodek_dcache_hit(whole, 0));
    let read = |len| ffi::rimjhodek_dcache_read(&lines, ADDR, len);
    assert_eq!(read(8), Number { refused: 0, value: 0x1819_1A1B_1C1D_1E1F });
    assert_eq!(read(9), Number { refused: 2, value: 0 });
}

#[test]
fn plans_come_out() {
    let (lines, tags) = data();
    let plan = |addr| ffi::rimjhodek_dcache_miss_plan(&lines, &tags, addr);
    let none = |plan| DataPlan { plan: Plan { refused: 0, plan, addr: 0 }, data: [0; 16] };
    let evict = Plan { refused: 0, plan: 2, addr: 0x1234_5670 };
    assert_eq!(plan(ADDR), none(0));
    assert_eq!(plan(0), none(1));
    assert_eq!(plan(0x0000_1670), DataPlan { plan: evict, data: bytes(0x10) });
    let refused = ffi::rimjhodek_dcache_miss_plan(&lines[1..], &tags, ADDR);
    assert_eq!(refused, DataPlan { plan: Plan { refused: 1, plan: 0, addr: 0 }, data: [0; 16] });
}

#[test]
fn data_lines_come_out() {
    let (lines, mut tags) = data();
    let mut flush = |addr| ffi::rimjhodek_dcache_flush_index(&lines, &mut tags, addr, false, false);
    let evict = Eviction { refused: 0, evict: true, addr: 0x1234_5670 };
    let none = Eviction { refused: 0, evict: false, addr: 0 };
    assert_eq!(flush(ADDR), DataLine { eviction: evict, data: bytes(0x10) });
    assert_eq!(flush(0), DataLine { eviction: none, data: [0; 16] });
    let refused = ffi::rimjhodek_dcache_flush_index(&lines, &mut tags[1..], ADDR, true, true);
    assert_eq!(refused, DataLine { eviction: Eviction { refused: 1, ..none }, data: [0; 16] });
}

#[test]
fn instruction_lines_come_out() {
    let (mut lines, mut tags) = (vec![0; 16384], vec![0; 512]);
    assert_eq!(ffi::rimjhodek_icache_install(&mut lines, &mut tags, ADDR, &bytes(0x20)), 0);
    let flush = |addr| ffi::rimjhodek_icache_flush_hit(&lines, &tags, addr);
    let evict = Eviction { refused: 0, evict: true, addr: 0x1234_5660 };
    let none = Eviction { refused: 0, evict: false, addr: 0 };
    assert_eq!(flush(ADDR), InstructionLine { eviction: evict, data: bytes(0x20) });
    assert_eq!(flush(0), InstructionLine { eviction: none, data: [0; 32] });
    let whole: &[u32; 512] = tags[..].try_into().unwrap();
    assert!(ffi::rimjhodek_icache_hit(whole, ADDR));
    assert!(!ffi::rimjhodek_icache_hit(whole, 0));
    let word = ffi::rimjhodek_icache_read_word(&lines, ADDR);
    assert_eq!(word, Number { refused: 0, value: 0x3839_3A3B });
}
