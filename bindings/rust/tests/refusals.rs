//! What is turned away, at the level of the exports: the number is given exactly then, all else of
//! the answer is zero, and what was lent is as it was.

use rimjhodek::addr::Access;
use rimjhodek::cop0::{Cop0, Cop0Op};
use rimjhodek::ffi::{
    self, By, DataLine, DataPlan, Eviction, Exc, Flag, Granted, InstructionLine, Looked, Number,
    Plan, Reached, Taken,
};
use rimjhodek::tlb::Tlb;
use rimjhodek::{Refusal, cache::Dcache, cache::Icache};

/// An operation on lent parts. It says its refusal, and has seen that there is no other answer.
type Op = fn(&mut [u8], &mut [u32]) -> u8;

/// Some address.
const ADDR: u32 = 0x0001_2340;

fn flag(answer: Flag) -> u8 {
    assert!(!answer.is);
    answer.refused
}

fn number(answer: Number) -> u8 {
    assert_eq!(answer.value, 0);
    answer.refused
}

fn plan(answer: DataPlan) -> u8 {
    let refused = answer.plan.refused;
    assert_eq!(answer, DataPlan { plan: Plan { refused, plan: 0, addr: 0 }, data: [0; 16] });
    refused
}

fn data(answer: DataLine) -> u8 {
    let refused = answer.eviction.refused;
    let eviction = Eviction { refused, evict: false, addr: 0 };
    assert_eq!(answer, DataLine { eviction, data: [0; 16] });
    refused
}

fn instructions(answer: InstructionLine) -> u8 {
    let refused = answer.eviction.refused;
    let eviction = Eviction { refused, evict: false, addr: 0 };
    assert_eq!(answer, InstructionLine { eviction, data: [0; 32] });
    refused
}

/// What an operation refuses of parts that hold something everywhere. They must be left as they
/// were.
fn refusal(op: Op, lines_len: usize, tags_len: usize) -> u8 {
    let mut lines: Vec<u8> = (0..lines_len).map(|i| i as u8 | 1).collect();
    // Valid and dirty, and of ADDR's page: what is there would be answered.
    let mut tags = vec![0x0030_0000 | ADDR >> 12; tags_len];
    let before = (lines.clone(), tags.clone());
    let refused = op(&mut lines, &mut tags);
    assert_eq!((lines, tags), before, "changed by what was refused");
    refused
}

/// Lengths near one, which are not it.
fn wrong(length: usize) -> [usize; 4] {
    [0, 1, length - 1, length + 1]
}

/// Refused for lines of any other length, whatever the tags are.
fn needs_lines(op: Op, lines: usize) {
    for bad in wrong(lines) {
        assert_eq!(refusal(op, bad, 512), 1);
        assert_eq!(refusal(op, bad, 511), 1);
    }
}

/// Refused for tags of any other length.
fn needs_tags(op: Op, lines: usize) {
    for bad in wrong(512) {
        assert_eq!(refusal(op, lines, bad), 1);
    }
}

fn needs_both(op: Op, lines: usize) {
    needs_lines(op, lines);
    needs_tags(op, lines);
}

#[test]
fn refusal_1_of_the_data_cache() {
    let both: [Op; 6] = [
        |lines, tags| ffi::rimjhodek_dcache_new(lines, tags),
        |lines, tags| plan(ffi::rimjhodek_dcache_miss_plan(lines, tags, ADDR)),
        |lines, tags| ffi::rimjhodek_dcache_install(lines, tags, ADDR, &[9; 16]),
        |lines, tags| ffi::rimjhodek_dcache_write(lines, tags, ADDR, 4, 9),
        |lines, tags| data(ffi::rimjhodek_dcache_flush_index(lines, tags, ADDR, true, true)),
        |lines, tags| data(ffi::rimjhodek_dcache_create_dirty_exclusive(lines, tags, ADDR)),
    ];
    both.iter().for_each(|op| needs_both(*op, 8192));
    let tags: [Op; 4] = [
        |_, tags| flag(ffi::rimjhodek_dcache_hits(tags, ADDR)),
        |_, tags| number(ffi::rimjhodek_dcache_load_tag(tags, ADDR)),
        |_, tags| ffi::rimjhodek_dcache_store_tag(tags, ADDR, 0x12C0),
        |_, tags| number(ffi::rimjhodek_dcache_resident_addr(tags, 3)),
    ];
    tags.iter().for_each(|op| needs_tags(*op, 8192));
    let read: Op = |lines, _| number(ffi::rimjhodek_dcache_read(lines, ADDR, 4));
    needs_lines(read, 8192);
}

#[test]
fn refusal_1_of_the_instruction_cache() {
    let both: [Op; 3] = [
        |lines, tags| ffi::rimjhodek_icache_new(lines, tags),
        |lines, tags| ffi::rimjhodek_icache_install(lines, tags, ADDR, &[9; 32]),
        |lines, tags| instructions(ffi::rimjhodek_icache_flush_hit(lines, tags, ADDR)),
    ];
    both.iter().for_each(|op| needs_both(*op, 16384));
    let tags: [Op; 6] = [
        |_, tags| flag(ffi::rimjhodek_icache_hits(tags, ADDR)),
        |_, tags| number(ffi::rimjhodek_icache_load_tag(tags, ADDR)),
        |_, tags| ffi::rimjhodek_icache_store_tag(tags, ADDR, 0x1280),
        |_, tags| ffi::rimjhodek_icache_invalidate_index(tags, ADDR),
        |_, tags| ffi::rimjhodek_icache_hit_invalidate(tags, ADDR),
        |_, tags| number(ffi::rimjhodek_icache_resident_addr(tags, 3)),
    ];
    tags.iter().for_each(|op| needs_tags(*op, 16384));
    let read: Op = |lines, _| number(ffi::rimjhodek_icache_read_word(lines, ADDR));
    needs_lines(read, 16384);
}

/// What document 01 refuses of a data access.
fn expected(offset: usize, length: usize) -> u8 {
    match (offset, length) {
        (_, 0) => 2,
        (_, length) if length > 8 => 2,
        (offset, length) if offset + length > 16 => 3,
        _ => 0,
    }
}

#[test]
fn refusals_2_and_3_of_data() {
    let lengths = (0..=17).chain([usize::MAX - 15, usize::MAX]);
    for length in lengths {
        for offset in 0..16 {
            let addr = ADDR + offset as u32;
            let lines: Vec<u8> = vec![0xAA; 8192];
            let read = ffi::rimjhodek_dcache_read(&lines, addr, length);
            assert_eq!(read.refused, expected(offset, length), "{length} bytes at {offset}");
            assert_eq!(read.value == 0, read.refused != 0);

            let (mut after, mut tags) = (lines.clone(), vec![0; 512]);
            let refused = ffi::rimjhodek_dcache_write(&mut after, &mut tags, addr, length, 0);
            assert_eq!(refused, read.refused, "{length} bytes at {offset}");
            assert_eq!(after == lines, refused != 0);
            assert_eq!(tags == [0; 512], refused != 0);
        }
    }
}

#[test]
fn refusal_3_of_a_word() {
    for offset in 0..32 {
        let word = ffi::rimjhodek_icache_read_word(&[0xAA; 16384], ADDR + offset);
        let expected = match offset {
            0..=28 => Number { refused: 0, value: 0xAAAA_AAAA },
            _ => Number { refused: 3, value: 0 },
        };
        assert_eq!(word, expected, "offset {offset}");
    }
}

#[test]
fn the_lowest_number_is_given() {
    let wrong_lines = [0; 8191];
    assert_eq!(number(ffi::rimjhodek_dcache_read(&wrong_lines, 9, 9)), 1);
    assert_eq!(number(ffi::rimjhodek_dcache_read(&wrong_lines, 9, 8)), 1);
    assert_eq!(number(ffi::rimjhodek_dcache_read(&[0; 8192], 9, 9)), 2);
    assert_eq!(number(ffi::rimjhodek_icache_read_word(&[0; 16383], 31)), 1);
}

#[test]
fn refusal_4_of_status() {
    let none = Granted { refused: 4, mode: 0, wide: false, erl: false };
    for status in 0..1024 {
        let refused = status >> 3 & 3 == 3 && status >> 1 & 3 == 0;
        assert_eq!(ffi::rimjhodek_from_status(status) == none, refused);
        assert_eq!(ffi::rimjhodek_from_status(status).refused, if refused { 4 } else { 0 });
        assert_eq!(Access::from_status(status).err(), refused.then_some(Refusal::Mode));
    }
}

#[test]
fn refusal_5_of_an_advance() {
    let mut cop0 = Cop0::new();
    let fresh = cop0.clone();
    for counts in [1 << 32, (1 << 32) + 1, u64::MAX] {
        let refused = ffi::rimjhodek_advance(&mut cop0.words, counts, 3);
        assert_eq!(refused, Flag { refused: 5, is: false });
        assert_eq!(cop0.advance(counts, 3), Err(Refusal::Counts));
        assert_eq!(cop0, fresh);
    }
    assert_eq!(cop0.advance((1 << 32) - 1, 3), Ok(false));
    assert_ne!(cop0, fresh);
}

#[test]
fn refusal_6_of_an_rs_field() {
    let forms = [(0, 0), (1, 1), (4, 2), (5, 3)];
    for rs in (0..=256).chain([u32::MAX - 26, u32::MAX]) {
        let form = forms.iter().find(|(named, _)| *named == rs);
        let expected = match form {
            Some((_, value)) => Number { refused: 0, value: *value },
            None => Number { refused: 6, value: 0 },
        };
        assert_eq!(ffi::rimjhodek_from_rs(rs), expected, "rs {rs}");
    }
    let forms = [0, 1, 4, 5].map(Cop0Op::from_rs);
    assert_eq!(forms, [Cop0Op::Mfc0, Cop0Op::Dmfc0, Cop0Op::Mtc0, Cop0Op::Dmtc0].map(Some));
    assert_eq!(Cop0Op::from_rs(6), None);
    assert_eq!(Cop0Op::from_rs(16), None);
}

/// Registers that an exception would change.
fn registers() -> Cop0 {
    let mut cop0 = Cop0::new();
    (0..32).for_each(|n| cop0.dmtc0(n, 0x0123_4567_89AB_CDEF));
    cop0.write(12, 0);
    cop0
}

#[test]
fn refusal_255_of_an_exception() {
    for number in 0..=255 {
        for store in [false, true] {
            let exc = Exc { number, store, wide: store, unit: 3 };
            let refused = if number < 14 { 0 } else { 255 };
            let mut cop0 = registers();
            let taken = ffi::rimjhodek_dispatch(&mut cop0.words, exc, 0x1000, store, 0x2000);
            assert_eq!(taken.refused, refused, "exception {number}");
            assert_eq!(cop0 == registers(), refused != 0, "exception {number}");
            assert_eq!(ffi::rimjhodek_exc_code_of(exc).refused, refused);
            assert_eq!(ffi::rimjhodek_vector_kind_of(exc).refused, refused);
            assert_eq!(ffi::rimjhodek_writes_bad_vaddr(exc).refused, refused);
            if refused != 0 {
                assert_eq!(taken, Taken { refused, stall_cycles: 0, vector: 0 });
                number_255(ffi::rimjhodek_exc_code_of(exc));
                number_255(ffi::rimjhodek_vector_kind_of(exc));
                assert!(!ffi::rimjhodek_writes_bad_vaddr(exc).is);
            }
        }
    }
}

fn number_255(answer: Number) {
    assert_eq!(answer, Number { refused: 255, value: 0 });
}

#[test]
fn refusal_255_of_a_vector() {
    for kind in 0..4 {
        assert_eq!(ffi::rimjhodek_vector(0, kind).refused, 0, "vector {kind}");
    }
    for kind in 4..=255 {
        number_255(ffi::rimjhodek_vector(0, kind));
    }
}

#[test]
fn refusal_255_of_a_mode() {
    // Two entries that match: a translation would shut the TLB down.
    let mut tlb = Tlb::new();
    tlb.words[4..8].copy_from_slice(&[0, 0x1_2000, 0x3F, 0x3F]);
    tlb.words[8..12].copy_from_slice(&[0, 0x1_2000, 0x3F, 0x3F]);
    let before = tlb.clone();
    for mode in 3..=255 {
        for wide in [false, true] {
            let by = By { mode, wide, erl: wide };
            let reached = ffi::rimjhodek_segment(0x1_2000, by);
            assert_eq!(reached, Reached { refused: 255, kind: 0, cached: false, addr: 0 });
            let looked = ffi::rimjhodek_translate_via(&mut tlb.words, 0x1_2000, 0, false, by);
            assert_eq!(looked, Looked { error: 255, uncached: false, entry: 0, addr: 0 });
            assert_eq!(tlb, before);
        }
    }
    let user = By { mode: 2, wide: false, erl: false };
    assert_eq!(ffi::rimjhodek_segment(0x1_2000, user).refused, 0);
    assert_eq!(ffi::rimjhodek_translate_via(&mut tlb.words, 0x1_2000, 0, false, user).error, 1);
    assert!(tlb.is_shutdown());
}

#[test]
#[should_panic(expected = "refused (2): a data access has 1 to 8 bytes")]
fn a_read_of_nothing() {
    let _ = Dcache::new().read(0, 0);
}

#[test]
#[should_panic(expected = "refused (3): an access ends within its line")]
fn a_write_past_the_end_of_a_line() {
    Dcache::new().write(12, 8, 0);
}

#[test]
#[should_panic(expected = "refused (3): an access ends within its line")]
fn a_word_past_the_end_of_a_line() {
    let _ = Icache::new().read_word(29);
}
