//! The TLB: a table of 32 entries, and the instruction micro-TLB before it.

use crate::cop0::Cop0;
use crate::ffi::{self, TLB_WORDS};

/// The bits of an address that VPN2 and the offset have.
pub const VA_MASK: u64 = 0x0000_00FF_FFFF_FFFF;

/// `EntryHi.VPN2`.
pub const VPN2_MASK: u64 = 0x0000_00FF_FFFF_E000;

/// `EntryHi.ASID`.
pub const ASID_MASK: u64 = 0xFF;

/// The table's entries.
pub const JTLB_ENTRIES: usize = 32;

/// The micro-TLB's slots.
pub const ITLB_ENTRIES: usize = 2;

/// What a fill of the micro-TLB costs, in the pipeline's cycles.
pub const ITLB_MISS_PCYCLES: u32 = 3;

/// One entry: a tag, and the pair of pages that it maps.
#[derive(Clone, Copy, Debug, Default, Eq, PartialEq)]
#[cfg_attr(feature = "serde", derive(serde::Serialize, serde::Deserialize))]
pub struct Entry {
    /// `PageMask`, which selects the page size.
    pub page_mask: u32,
    /// Address bits 39..13 in place, with the mask's bits cleared.
    pub vpn2: u64,
    /// The address space.
    pub asid: u8,
    /// Match in every address space.
    pub global: bool,
    /// Address bits 63..62.
    pub region: u8,
    /// The even page.
    pub lo0: PageEntry,
    /// The odd page.
    pub lo1: PageEntry,
}

impl Entry {
    /// The entry that four words mean: PageMask, EntryHi, EntryLo0 and EntryLo1.
    const fn of(words: [u64; 4]) -> Self {
        let [mask, hi, lo0, lo1] = words;
        let page_mask = mask as u32;
        Self {
            page_mask,
            vpn2: hi & VPN2_MASK & !(page_mask as u64),
            asid: (hi & ASID_MASK) as u8,
            global: lo0 & 1 == 1,
            region: (hi >> 62) as u8,
            lo0: PageEntry::of(lo0),
            lo1: PageEntry::of(lo1),
        }
    }
}

/// One half of an entry: the even or the odd page.
#[derive(Clone, Copy, Debug, Default, Eq, PartialEq)]
#[cfg_attr(feature = "serde", derive(serde::Serialize, serde::Deserialize))]
pub struct PageEntry {
    /// The page frame number, in units of 4 KiB whatever the page size.
    pub pfn: u32,
    /// The cache attribute: only 2 means uncached.
    pub c: u8,
    /// Dirty, which means that it may be written.
    pub dirty: bool,
    /// Valid. It has no part in matching.
    pub valid: bool,
}

impl PageEntry {
    /// The half that an EntryLo means.
    const fn of(lo: u64) -> Self {
        Self {
            pfn: (lo >> 6 & 0xF_FFFF) as u32,
            c: (lo >> 3 & 7) as u8,
            dirty: lo >> 2 & 1 == 1,
            valid: lo >> 1 & 1 == 1,
        }
    }

    /// Is this page uncached?
    #[must_use]
    pub const fn uncached(self) -> bool {
        self.c == 2
    }
}

/// Why a lookup failed.
#[derive(Clone, Copy, Debug, Eq, PartialEq)]
#[cfg_attr(feature = "serde", derive(serde::Serialize, serde::Deserialize))]
pub enum TlbFault {
    /// No entry matched.
    Refill,
    /// The selected half is not valid.
    Invalid,
    /// A store to a half that may not be written.
    Modified,
}

impl TlbFault {
    /// The fault that has a number, of those from 1 that [`ffi::Looked`] holds.
    #[cold]
    #[inline(never)]
    pub(crate) fn numbered(error: u8) -> Self {
        match error {
            1 => Self::Refill,
            2 => Self::Invalid,
            3 => Self::Modified,
            _ => unreachable!("no fault of the TLB has the number {error}"),
        }
    }
}

/// Where a lookup leads. Laid out as [`ffi::Looked`] is, so that it is taken over whole.
#[derive(Clone, Copy, Debug, Eq, PartialEq)]
#[repr(C)]
#[cfg_attr(feature = "serde", derive(serde::Serialize, serde::Deserialize))]
pub struct Translated {
    /// Does the access bypass the caches?
    pub uncached: bool,
    /// The number of the entry that gave the address, 0 to 31: the only one that matches. The
    /// original does not tell it.
    pub entry: u8,
    /// The physical address.
    pub addr: u32,
}

/// The places of a TLB's words after the 32 entries.
pub mod word {
    /// The micro-TLB's first slot: an entry's number, or from 32 up nothing.
    pub const SLOT0: usize = 128;
    /// Its second slot.
    pub const SLOT1: usize = 129;
    /// The slot that is filled next.
    pub const NEXT: usize = 130;
    /// Bit 0: two entries matched once, and the TLB is off.
    pub const SHUTDOWN: usize = 131;
}

/// The TLB.
#[derive(Clone, Debug, Eq, PartialEq)]
#[cfg_attr(feature = "serde", derive(serde::Serialize, serde::Deserialize))]
pub struct Tlb {
    /// Entry `i` is words `4 * i` to `4 * i + 3`, in the form of PageMask, EntryHi, EntryLo0 and
    /// EntryLo1; then comes what [`word`] names. These are all of the state.
    #[cfg_attr(feature = "serde", serde(with = "crate::arrays"))]
    pub words: [u64; TLB_WORDS],
}

impl Default for Tlb {
    fn default() -> Self {
        Self::new()
    }
}

impl Tlb {
    /// A table whose entries are valid nowhere and match no two at once.
    #[must_use]
    pub fn new() -> Self {
        let mut words = [0; TLB_WORDS];
        ffi::rimjhodek_tlb_new(&mut words);
        Self { words }
    }

    /// Have two entries matched once? The TLB is off then, until a new one is made.
    #[must_use]
    pub const fn is_shutdown(&self) -> bool {
        self.words[word::SHUTDOWN] & 1 == 1
    }

    /// Entry `i`, modulo 32.
    #[must_use]
    pub const fn entry(&self, i: usize) -> Entry {
        let at = 4 * (i % JTLB_ENTRIES);
        let words = &self.words;
        Entry::of([words[at], words[at + 1], words[at + 2], words[at + 3]])
    }

    /// The size of a page under a mask, in bytes.
    #[must_use]
    #[inline(always)]
    pub fn page_size(mask: u32) -> u64 {
        ffi::rimjhodek_page_size(mask)
    }

    /// The size of a pair of pages under a mask.
    #[must_use]
    #[inline(always)]
    pub fn pair_size(mask: u32) -> u64 {
        ffi::rimjhodek_pair_size(mask)
    }

    /// Where an address leads. Two entries that match shut the TLB down.
    ///
    /// # Errors
    ///
    /// The [`TlbFault`] to raise.
    #[inline(always)]
    pub fn lookup(&mut self, vaddr: u64, asid: u8, store: bool) -> Result<Translated, TlbFault> {
        let looked = ffi::rimjhodek_lookup(&mut self.words, vaddr, asid, store);
        if looked.error == 0 {
            let ffi::Looked { uncached, entry, addr, .. } = looked;
            return Ok(Translated { uncached, entry, addr });
        }
        Err(TlbFault::numbered(looked.error))
    }

    /// `TLBWI`, `TLBWR`: the registers' entry goes into place `index`, modulo 32.
    #[inline(always)]
    pub fn write_entry(&mut self, index: usize, cop0: &Cop0) {
        ffi::rimjhodek_write_entry(&mut self.words, index, &cop0.words);
    }

    /// `TLBR`: entry `index`, modulo 32, goes back into the registers.
    #[inline(always)]
    pub fn read_entry(&self, index: usize, cop0: &mut Cop0) {
        ffi::rimjhodek_read_entry(&self.words, index, &mut cop0.words);
    }

    /// `TLBP`: Index takes the number of the lowest entry that matches EntryHi, or its bit 31
    /// alone.
    #[inline(always)]
    pub fn probe(&self, cop0: &mut Cop0) {
        ffi::rimjhodek_probe(&self.words, &mut cop0.words);
    }

    /// Would a lookup find an entry?
    #[must_use]
    #[inline(always)]
    pub fn jtlb_has_match(&self, vaddr: u64, asid: u8) -> bool {
        ffi::rimjhodek_jtlb_has_match(&self.words, vaddr, asid)
    }

    /// Does the micro-TLB hit? A hit makes its other slot the next to be filled.
    #[inline(always)]
    pub fn itlb_probe(&mut self, vaddr: u64, asid: u8) -> bool {
        ffi::rimjhodek_itlb_probe(&mut self.words, vaddr, asid)
    }

    /// The lowest matching entry goes into the micro-TLB's next slot.
    #[inline(always)]
    pub fn itlb_fill(&mut self, vaddr: u64, asid: u8) {
        ffi::rimjhodek_itlb_fill(&mut self.words, vaddr, asid);
    }
}
