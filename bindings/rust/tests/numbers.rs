//! The scope's "Numbers to hold the definitions to" (document 01), through the safe API.

use rimjhodek::addr::{Access, Cached, Mode, Segment, segment};
use rimjhodek::cache::Dcache;
use rimjhodek::cop0::{Cop0, reg};
use rimjhodek::exception::{self, Exception, VectorKind};
use rimjhodek::tlb::Tlb;

/// The page mask that an entry stores of a written one.
fn stored(mask: u64) -> u32 {
    let mut cop0 = Cop0::new();
    cop0.write(reg::PAGE_MASK, mask);
    let mut tlb = Tlb::new();
    tlb.write_entry(0, &cop0);
    tlb.entry(0).page_mask
}

#[test]
fn p1_the_lower_bit_of_a_pair_is_lost() {
    assert_eq!(stored(0x2000), 0);
}

#[test]
fn p2_the_upper_bit_of_a_pair_sets_both() {
    assert_eq!(stored(0x4000), 0x6000);
    assert_eq!(Tlb::page_size(0x6000), 0x4000);
}

#[test]
fn p3_a_mask_with_a_gap() {
    assert_eq!(stored(0x0006_0000), 0x0006_0000);
    assert_eq!(Tlb::page_size(0x0006_0000), 0x31000);
}

const SUPERVISOR: Access = Access { mode: Mode::Supervisor, wide: false, erl: false };
const KERNEL_WIDE: Access = Access { mode: Mode::Kernel, wide: true, erl: false };

#[test]
fn p4_the_supervisor_segment_ends() {
    assert_eq!(segment(0xFFFF_FFFF_DFFF_FFFF, SUPERVISOR), Segment::Mapped);
    assert_eq!(segment(0xFFFF_FFFF_E000_0000, SUPERVISOR), Segment::Invalid);
}

#[test]
fn p5_the_wide_kernel_segment_ends() {
    assert_eq!(segment(0xC000_00FF_7FFF_FFFF, KERNEL_WIDE), Segment::Mapped);
    assert_eq!(segment(0xC000_00FF_8000_0000, KERNEL_WIDE), Segment::Invalid);
}

#[test]
fn p6_direct_windows() {
    let direct = Segment::Direct { addr: 0x1234_5678, cached: Cached::No };
    assert_eq!(segment(0x9000_0000_1234_5678, KERNEL_WIDE), direct);
    assert_eq!(segment(0x9000_0001_0000_0000, KERNEL_WIDE), Segment::Invalid);
}

#[test]
fn p7_a_nested_refill_takes_the_general_vector() {
    assert_eq!(exception::vector(0b10, VectorKind::TlbRefill), 0xFFFF_FFFF_8000_0180);
}

#[test]
fn p8_a_delay_slot_at_the_start_of_all() {
    let mut cop0 = Cop0::new();
    exception::dispatch(&mut cop0, Exception::Syscall, 0, true, 0);
    assert_eq!(cop0.read(reg::EPC), 0xFFFF_FFFF_FFFF_FFFC);
}

/// Random after some steps.
fn stepped(random: u64, wired: u64, steps: u64) -> u64 {
    let mut cop0 = Cop0::new();
    cop0.set_hardware(reg::WIRED, wired);
    cop0.set_hardware(reg::RANDOM, random);
    let mut single = cop0.clone();
    cop0.tick_random_by(steps);
    (0..steps).for_each(|_| single.tick_random());
    assert_eq!(cop0, single);
    cop0.read(reg::RANDOM)
}

#[test]
fn p9_random_turns_at_wired() {
    assert_eq!(stepped(31, 10, 21), 10);
    assert_eq!(stepped(31, 10, 22), 31);
    assert_eq!(stepped(5, 10, 6), 63);
}

/// A register file with these two.
fn timed(count: u64, compare: u64) -> Cop0 {
    let mut cop0 = Cop0::new();
    cop0.mtc0(reg::COUNT, count);
    cop0.mtc0(reg::COMPARE, compare);
    cop0
}

#[test]
fn p10_compare_after_the_wrap_of_count() {
    let mut cop0 = timed(0xFFFF_FFFE, 1);
    assert_eq!(cop0.advance(2, 0), Ok(false));
    assert_eq!(cop0.advance(1, 0), Ok(true));
}

#[test]
fn p11_compare_is_a_whole_wrap_away() {
    let mut cop0 = timed(7, 7);
    assert_eq!(cop0.advance(0xFFFF_FFFF, 0), Ok(false));
    assert_eq!(cop0.advance(1, 0), Ok(true));
}

#[test]
fn p12_a_stored_tag() {
    let mut dcache = Dcache::new();
    dcache.store_tag(0x1010, 0x12C0);
    assert_eq!(dcache.load_tag(0x1010), 0x12C0);
    assert_eq!(dcache.resident_addr(0x1010 / 16), 0x12010);
}

#[test]
fn the_last_eight_bytes_of_a_line() {
    let mut dcache = Dcache::new();
    dcache.install(0, std::array::from_fn(|i| i as u8));
    assert_eq!(dcache.read(8, 8), 0x0809_0A0B_0C0D_0E0F);
}

#[test]
#[should_panic(expected = "refused (3)")]
fn eight_bytes_past_the_end_of_a_line() {
    let _ = Dcache::new().read(9, 8);
}
