//! State is words: all of it is in them, they are compared as they are, and a copy goes on as what
//! it was copied from.

use rimjhodek::cop0::{self, Cop0, reg};
use rimjhodek::exception::{self, Exception};
use rimjhodek::ffi;
use rimjhodek::tlb::{self, JTLB_ENTRIES, Tlb};

/// Numbers that are each another.
struct Mixed(u64);

impl Mixed {
    fn next(&mut self) -> u64 {
        self.0 = self.0.wrapping_mul(0x5851_F42D_4C95_7F2D).wrapping_add(1);
        self.0 ^ self.0 >> 29
    }
}

#[test]
fn a_session_is_fresh_registers_and_a_fresh_table() {
    let (mut cop0, mut tlb) = ([u64::MAX; 38], [u64::MAX; 132]);
    ffi::rimjhodek_session_new(&mut cop0, &mut tlb);
    assert_eq!(cop0, Cop0::new().words);
    assert_eq!(tlb, Tlb::new().words);
    let mut registers = [u64::MAX; 38];
    ffi::rimjhodek_cop0_new(&mut registers);
    assert_eq!(registers, cop0);
    let mut table = [u64::MAX; 132];
    ffi::rimjhodek_tlb_new(&mut table);
    assert_eq!(table, tlb);
}

/// A member of a room: both parts.
#[derive(Clone, Debug, Default, Eq, PartialEq)]
struct Member {
    cop0: Cop0,
    tlb: Tlb,
}

impl Member {
    /// Some operation of a session, as a number decides.
    fn act(&mut self, number: u64) {
        let n = (number >> 8) as u8;
        let vaddr = number >> 16 & 0x3_FFFF;
        match number % 8 {
            0 | 1 => self.cop0.dmtc0(n, number.rotate_left(17)),
            2 => self.tlb.write_entry(n.into(), &self.cop0),
            3 => drop(self.cop0.advance(number >> 40, number >> 50)),
            4 => drop(self.tlb.lookup(vaddr, n, false)),
            5 => self.tlb.itlb_fill(vaddr, n),
            6 => drop(exception::dispatch(&mut self.cop0, Exception::Trap, vaddr, false, 0)),
            _ => drop(exception::eret(&mut self.cop0)),
        }
    }

    /// No bit is set that means nothing: a host compares and hashes words.
    fn has_no_litter(&self) {
        let cop0 = &self.cop0.words;
        assert_eq!(cop0[cop0::word::EPOCH_COUNT] >> 32, 0);
        assert_eq!(cop0[cop0::word::LAST_COUNT] >> 32, 0);
        assert_eq!(cop0[cop0::word::EC] >> 8, 0);
        for i in 0..JTLB_ENTRIES {
            let [mask, hi, lo0, lo1] = std::array::from_fn(|k| self.tlb.words[4 * i + k]);
            assert_eq!(mask & !0x01FF_E000, 0);
            assert_eq!(hi & (!0xC000_00FF_FFFF_E0FF | mask), 0);
            assert_eq!((lo0 | lo1) & !0x03FF_FFFF, 0);
            assert_eq!(lo0 & 1, lo1 & 1);
        }
        assert!(self.tlb.words[tlb::word::SLOT0..].iter().all(|word| *word <= 32));
    }
}

#[test]
fn a_copy_goes_on_as_the_member_does() {
    let mut mixed = Mixed(1);
    let mut member = Member::default();
    for _ in 0..200 {
        let mut other = Member::default();
        other.cop0.words.copy_from_slice(&member.cop0.words);
        other.tlb.words.copy_from_slice(&member.tlb.words);
        for _ in 0..20 {
            let number = mixed.next();
            member.act(number);
            other.act(number);
            assert_eq!(member, other);
            member.has_no_litter();
        }
        if member.tlb.is_shutdown() {
            member = Member::default();
        }
    }
}

/// `entry` is read here and not by the library: what TLBR moves says the same, of any words.
#[test]
fn an_entry_is_what_tlbr_moves() {
    let mut mixed = Mixed(2);
    for i in 0..JTLB_ENTRIES {
        let mut tlb = Tlb { words: std::array::from_fn(|_| mixed.next()) };
        // No more than a register has.
        tlb.words[4 * i] &= 0x01FF_E000;
        let entry = tlb.entry(i);
        let mut cop0 = Cop0::new();
        tlb.read_entry(i, &mut cop0);
        assert_eq!(cop0.read(reg::PAGE_MASK), entry.page_mask.into());
        let hi = u64::from(entry.region) << 62 | entry.vpn2 | u64::from(entry.asid);
        assert_eq!(cop0.read(reg::ENTRY_HI), hi);
        for (n, half) in [(reg::ENTRY_LO0, entry.lo0), (reg::ENTRY_LO1, entry.lo1)] {
            let flags = u64::from(half.dirty) << 2 | u64::from(half.valid) << 1;
            let lo = u64::from(half.pfn) << 6 | u64::from(half.c) << 3 | flags;
            assert_eq!(cop0.read(n), lo | u64::from(entry.global));
        }
    }
}

/// Of a hand-built entry the bits under its mask, and those that no field has, mean nothing.
#[test]
fn bits_that_mean_nothing_are_ignored() {
    let mut tlb = Tlb::new();
    tlb.words[20..24].copy_from_slice(&[0x6000, 0x1_0000, 0x1F, 0x1F]);
    let mut littered = tlb.clone();
    littered.words[20] |= 0xFFFF_FFFF << 32;
    littered.words[21] |= 0x3FFF_FF00_0000_1F00 | 0x6000;
    littered.words[22] |= 0xFFFF_FFFF << 26;
    littered.words[tlb::word::SLOT0] |= 0xFF00;
    littered.words[tlb::word::SHUTDOWN] |= 0xFE;
    assert_eq!(littered.entry(5), tlb.entry(5));
    for vaddr in (0..0x4_0000).step_by(0x800) {
        assert_eq!(littered.lookup(vaddr, 0, false), tlb.lookup(vaddr, 0, false), "{vaddr:#x}");
    }
    let mut cop0 = Cop0::new();
    cop0.words[cop0::word::EPOCH_COUNT] |= 0xABCD << 32;
    cop0.words[cop0::word::EC] |= 0xABCD << 8;
    assert_eq!(cop0.read(reg::COUNT), 0);
    assert_eq!(cop0.read(reg::CONFIG), Cop0::new().read(reg::CONFIG));
    assert_eq!(cop0.advance(5, 0), Ok(false));
    assert_eq!(cop0.words[cop0::word::EPOCH_COUNT], 0xABCD << 32);
}
