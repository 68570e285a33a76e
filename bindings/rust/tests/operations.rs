//! Each operation of the safe API, as an emulator calls it.

use rimjhodek::addr::{self, Access, Cached, Mode, Physical, TranslateError};
use rimjhodek::cache::{DCACHE_LINES, Dcache, ICACHE_LINES, Icache, Writeback};
use rimjhodek::cop0::{Cop0, reg};
use rimjhodek::exception::{self, Dispatch, EPILOGUE_STALL, Exception, VectorKind, exc_code};
use rimjhodek::tlb::{JTLB_ENTRIES, PageEntry, Tlb, TlbFault, Translated, word};

#[test]
fn registers_are_moved() {
    let mut cop0 = Cop0::new();
    cop0.mtc0(reg::EPC, 0x1234_5678_8000_1000);
    assert_eq!(cop0.dmfc0(reg::EPC), 0xFFFF_FFFF_8000_1000);
    assert_eq!(cop0.mfc0(7), 0xFFFF_FFFF_8000_1000);
    cop0.dmtc0(reg::EPC, 0x1234_5678_8000_1000);
    assert_eq!(cop0.dmfc0(reg::EPC), 0x1234_5678_8000_1000);
    assert_eq!(cop0.mfc0(reg::EPC), 0xFFFF_FFFF_8000_1000);
    cop0.mtc0(reg::COMPARE, 0x1234_5678_8000_1000);
    assert_eq!(cop0.read(reg::COMPARE), 0x8000_1000);
    assert_eq!(cop0.read(reg::CONFIG), 0x7006_E460);
    cop0.write(reg::CAUSE, u64::MAX);
    assert_eq!(cop0.read(reg::CAUSE), 0x300);
}

#[test]
fn the_clock_of_a_scheduler() {
    let mut cop0 = Cop0::new();
    cop0.set_now(100);
    cop0.mtc0(reg::COUNT, 10);
    cop0.mtc0(reg::COMPARE, 15);
    assert_eq!(cop0.count_ticks_until_timer_match(), 5);
    cop0.set_now(105);
    assert_eq!((cop0.count_now(), cop0.count()), (105, 15));
    assert!(cop0.timer_matches());
    assert!(cop0.timer_edge());
    assert!(!cop0.timer_edge());
    assert_eq!(cop0.count_ticks_until_timer_match(), 0xFFFF_FFFF);
}

#[test]
fn an_interrupt_is_pending() {
    let mut cop0 = Cop0::new();
    cop0.mtc0(reg::STATUS, 0x0401);
    cop0.set_ip(2, true);
    assert!(cop0.interrupt_pending());
    cop0.set_ip(2, false);
    assert!(!cop0.interrupt_pending());
}

/// A table whose entry `at` maps 0x1_2000 in address space 7 to 0xABCDE000, which may be written
/// and is uncached, and one page on to 0x12345000; with the registers that wrote it.
fn mapped(at: usize) -> (Tlb, Cop0) {
    let mut cop0 = Cop0::new();
    cop0.mtc0(reg::ENTRY_HI, 0x1_2000 | 7);
    cop0.mtc0(reg::ENTRY_LO0, 0xABCDE << 6 | 2 << 3 | 0b110);
    cop0.mtc0(reg::ENTRY_LO1, 0x12345 << 6 | 3 << 3 | 0b010);
    let mut tlb = Tlb::new();
    tlb.write_entry(at, &cop0);
    (tlb, cop0)
}

#[test]
fn a_fresh_table() {
    let tlb = Tlb::default();
    for i in 0..JTLB_ENTRIES {
        let entry = tlb.entry(i);
        assert_eq!(entry.vpn2, (0x7FF_FFFF - i as u64) << 13);
        assert_eq!((entry.lo0, entry.lo1), (PageEntry::default(), PageEntry::default()));
    }
    assert_eq!(tlb.words[word::SLOT0..], [32, 32, 0, 0]);
    assert!(!tlb.is_shutdown());
}

#[test]
fn entries_are_written_found_and_read() {
    let (mut tlb, mut cop0) = mapped(5 + 32);
    assert!(tlb.entry(5).lo0.uncached());
    assert_eq!((Tlb::page_size(0), Tlb::pair_size(0)), (0x1000, 0x2000));
    let even = Translated { addr: 0xABCD_E678, uncached: true, entry: 5 };
    let odd = Translated { addr: 0x1234_5678, uncached: false, entry: 5 };
    assert_eq!(tlb.lookup(0x1_2678, 7, true), Ok(even));
    assert_eq!(tlb.lookup(0x1_3678, 7, false), Ok(odd));
    assert_eq!(tlb.lookup(0x1_3678, 7, true), Err(TlbFault::Modified));
    assert_eq!(tlb.lookup(0x1_2678, 8, false), Err(TlbFault::Refill));
    tlb.probe(&mut cop0);
    assert_eq!(cop0.read(reg::INDEX), 5);
    cop0.mtc0(reg::ENTRY_HI, 0);
    tlb.probe(&mut cop0);
    assert_eq!(cop0.read(reg::INDEX), 0x8000_0000);
    tlb.read_entry(5, &mut cop0);
    assert_eq!(cop0.read(reg::ENTRY_HI), 0x1_2007);
}

/// By each entry in turn, and through it to the entry itself.
#[test]
fn the_entry_that_answered() {
    for i in 0..JTLB_ENTRIES {
        let (mut tlb, _) = mapped(i);
        let found = tlb.lookup(0x1_2678, 7, true).expect("it is mapped");
        assert_eq!(usize::from(found.entry), i);
        assert_eq!(tlb.entry(found.entry.into()).vpn2, 0x1_2000);
        let kernel = Access::kernel();
        let reached = addr::translate_via(&mut tlb, 0x1_2678, 7, true, kernel);
        assert_eq!(reached.map(|to| to.entry), Ok(Some(found.entry)));
    }
}

#[test]
fn the_micro_tlb() {
    let (mut tlb, _) = mapped(5);
    assert!(!tlb.itlb_probe(0x1_2000, 7));
    assert!(tlb.jtlb_has_match(0x1_2000, 7));
    tlb.itlb_fill(0x1_2000, 7);
    assert!(tlb.itlb_probe(0x1_2000, 7));
    assert_eq!(tlb.words[word::SLOT0..], [5, 32, 1, 0]);
}

#[test]
fn a_second_match_shuts_the_tlb_down() {
    let (mut tlb, cop0) = mapped(5);
    tlb.write_entry(6, &cop0);
    let mut translated = tlb.clone();
    assert_eq!(tlb.lookup(0x1_2000, 7, false), Err(TlbFault::Refill));
    assert!(tlb.is_shutdown());
    assert!(!tlb.jtlb_has_match(0x1_2000, 7));

    let refill = Err(TranslateError::Tlb(TlbFault::Refill));
    let kernel = Access::kernel();
    assert_eq!(addr::translate_via(&mut translated, 0x1_2000, 7, false, kernel), refill);
    assert_eq!(translated, tlb);
}

#[test]
fn addresses_are_translated() {
    let (mut tlb, mut cop0) = mapped(5);
    let kernel = Access::kernel();
    let mut translate =
        |vaddr, store, access| addr::translate_via(&mut tlb, vaddr, 7, store, access);
    let cached = |addr, entry| Ok(Physical { addr, cached: Cached::Yes, entry });
    let uncached = |addr, entry| Ok(Physical { addr, cached: Cached::No, entry });
    assert_eq!(translate(0xFFFF_FFFF_8000_1000, true, kernel), cached(0x1000, None));
    assert_eq!(translate(0xFFFF_FFFF_A000_1000, true, kernel), uncached(0x1000, None));
    assert_eq!(translate(0x1_2678, true, kernel), uncached(0xABCD_E678, Some(5)));
    assert_eq!(translate(0x1_3678, false, kernel), cached(0x1234_5678, Some(5)));
    let fault = |fault| Err(TranslateError::Tlb(fault));
    assert_eq!(translate(0x1_3678, true, kernel), fault(TlbFault::Modified));
    assert_eq!(translate(0x4_0000, true, kernel), fault(TlbFault::Refill));
    let user = Access { mode: Mode::User, wide: false, erl: false };
    assert_eq!(translate(0xFFFF_FFFF_8000_1000, true, user), Err(TranslateError::Address));

    cop0.mtc0(reg::ENTRY_LO0, 0);
    tlb.write_entry(5, &cop0);
    let invalid = addr::translate_via(&mut tlb, 0x1_2678, 7, false, user);
    assert_eq!(invalid, fault(TlbFault::Invalid));
}

#[test]
fn the_access_that_status_asks_for() {
    let access = |mode, wide, erl| Ok(Access { mode, wide, erl });
    assert_eq!(Access::from_status(0x80), access(Mode::Kernel, true, false));
    assert_eq!(Access::from_status(0x48), access(Mode::Supervisor, true, false));
    assert_eq!(Access::from_status(0xD0), access(Mode::User, false, false));
    assert_eq!(Access::from_status(0x1A), access(Mode::Kernel, false, false));
    assert_eq!(Access::from_status(0x5C), access(Mode::Kernel, false, true));
    assert_eq!(Access::from_status(0x94), access(Mode::Kernel, true, true));
}

/// Boot code that sets KSU before it clears ERL goes on in the reset handler, and ERET leaves it.
#[test]
fn a_cold_console_boots() {
    let (mut cop0, mut tlb) = (Cop0::new(), Tlb::new());
    let access = |cop0: &Cop0| Access::from_status(cop0.read(reg::STATUS));
    let handler = exception::vector(0, VectorKind::Reset);
    cop0.mtc0(reg::STATUS, 0x0040_0014);
    let boot = Access { mode: Mode::Kernel, wide: false, erl: true };
    assert_eq!(access(&cop0), Ok(boot));
    let rom = Physical { addr: 0x1FC0_0000, cached: Cached::No, entry: None };
    assert_eq!(addr::translate_via(&mut tlb, handler, 0, false, boot), Ok(rom));

    cop0.mtc0(reg::ERROR_EPC, 0x1000);
    assert_eq!(exception::eret(&mut cop0), 0x1000);
    let user = Access { mode: Mode::User, wide: false, erl: false };
    assert_eq!(access(&cop0), Ok(user));
    let fetched = addr::translate_via(&mut tlb, handler, 0, false, user);
    assert_eq!(fetched, Err(TranslateError::Address));
}

#[test]
fn an_exception_is_taken_and_returned_from() {
    let mut cop0 = Cop0::new();
    cop0.mtc0(reg::STATUS, 0);
    let refill = Exception::TlbRefill { store: true, wide: false };
    let taken = exception::dispatch(&mut cop0, refill, 0x8000_1004, true, 0x1234_5678);
    assert_eq!(taken, Dispatch { vector: 0xFFFF_FFFF_8000_0000, stall_cycles: EPILOGUE_STALL });
    assert_eq!(cop0.read(reg::CAUSE), 1 << 31 | exc_code::TLBS << 2);
    assert_eq!(cop0.read(reg::BAD_VADDR), 0x1234_5678);
    assert_eq!(cop0.read(reg::STATUS), 0b10);

    let unusable = Exception::CoprocessorUnusable { unit: 2 };
    let nested = exception::dispatch(&mut cop0, unusable, 0, false, 0);
    assert_eq!(nested.vector, 0xFFFF_FFFF_8000_0180);
    assert_eq!(cop0.read(reg::CAUSE), 1 << 31 | 2 << 28 | exc_code::CPU << 2);
    assert_eq!(exception::eret(&mut cop0), 0x8000_1000);

    let reset = exception::nmi(&mut cop0, 0x1000);
    assert_eq!(reset.vector, exception::vector(0, VectorKind::Reset));
    assert_eq!(cop0.read(reg::STATUS), 0x0050_0004);
    assert_eq!(exception::eret(&mut cop0), 0x1000);
}

#[test]
fn what_an_exception_is() {
    use Exception::*;
    let general = VectorKind::General;
    let kinds = [
        (Interrupt, exc_code::INT, general, false),
        (AddressError { store: false }, exc_code::ADEL, general, true),
        (AddressError { store: true }, exc_code::ADES, general, true),
        (Overflow, exc_code::OV, general, false),
        (Syscall, exc_code::SYS, general, false),
        (Breakpoint, exc_code::BP, general, false),
        (Trap, exc_code::TR, general, false),
        (ReservedInstruction, exc_code::RI, general, false),
        (CoprocessorReserved { unit: 1 }, exc_code::RI, general, false),
        (CoprocessorUnusable { unit: 1 }, exc_code::CPU, general, false),
        (Nmi, exc_code::INT, VectorKind::Reset, false),
        (TlbRefill { store: false, wide: false }, exc_code::TLBL, VectorKind::TlbRefill, true),
        (TlbRefill { store: true, wide: true }, exc_code::TLBS, VectorKind::XtlbRefill, true),
        (TlbInvalid { store: false }, exc_code::TLBL, general, true),
        (TlbInvalid { store: true }, exc_code::TLBS, general, true),
        (TlbModified, exc_code::MOD, general, true),
        (FloatingPoint, exc_code::FPE, general, false),
    ];
    for (exc, code, kind, bad_vaddr) in kinds {
        assert_eq!(exception::exc_code_of(exc), code, "{exc:?}");
        assert_eq!(exception::vector_kind_of(exc), kind, "{exc:?}");
        assert_eq!(exception::writes_bad_vaddr(exc), bad_vaddr, "{exc:?}");
    }
}

#[test]
fn a_data_line_comes_and_goes() {
    let line = [0x10; 16];
    let mut dcache = Dcache::default();
    assert_eq!(dcache.miss_plan(0x1234_5678), Some(None));
    dcache.install(0x1234_5678, line);
    assert!(dcache.hits(0x1234_5670));
    assert_eq!(dcache.miss_plan(0x1234_5678), None);
    assert_eq!(dcache.flush_index(0x1670, false, true), None);

    dcache.write(0x1234_567E, 2, 0x1234);
    assert_eq!(dcache.read(0x1234_567C, 4), 0x1010_1234);
    let mut data = line;
    data[14..].copy_from_slice(&[0x12, 0x34]);
    let dirty = Writeback { addr: 0x1234_5670, data };
    assert_eq!(dcache.miss_plan(0x1670), Some(Some(dirty)));
    assert_eq!(dcache.create_dirty_exclusive(0x1670), Some(dirty));
    let claimed = Writeback { addr: 0x1670, data };
    assert_eq!(dcache.flush_index(0x1670, true, false), Some(claimed));
    assert!(!dcache.hits(0x1670));
    assert_eq!(dcache.resident_addr(0x167), 0x1670);
    assert_eq!(dcache.resident_addr(0x167 + DCACHE_LINES), 0x1670);
}

#[test]
fn an_instruction_line_comes_and_goes() {
    let data = std::array::from_fn(|i| i as u8);
    let mut icache = Icache::default();
    icache.install(0x1234_5678, data);
    assert!(icache.hits(0x1234_5660));
    assert_eq!(icache.read_word(0x1234_567C), 0x1C1D_1E1F);
    assert_eq!(icache.flush_hit(0x1234_5678), Some(Writeback { addr: 0x1234_5660, data }));
    assert_eq!(icache.flush_hit(0x1678), None);
    assert_eq!(icache.load_tag(0x1660), 0x0123_4580);
    icache.hit_invalidate(0x1660);
    assert!(icache.hits(0x1234_5660));
    icache.hit_invalidate(0x1234_5660);
    assert!(!icache.hits(0x1234_5660));
    icache.store_tag(0x1660, 0x0123_4580);
    assert!(icache.hits(0x1234_5660));
    icache.invalidate_index(0x1660);
    assert!(!icache.hits(0x1234_5660));
    assert_eq!(icache.resident_addr(0xB3 + ICACHE_LINES), 0x1234_5660);
}
