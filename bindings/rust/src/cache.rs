//! The two primary caches.
//!
//! A cache owns its lines and its tags, and lends them to each operation. Tag words are as the
//! library stores them: bits 19..0 are the tag, bit 20 is valid, bit 21 is dirty.

use crate::ffi::{self, Eviction};
use crate::refusal;

/// Bytes in a line of the instruction cache.
pub const ICACHE_LINE: u32 = 32;
/// Bytes in a line of the data cache.
pub const DCACHE_LINE: u32 = 16;
/// Lines of the instruction cache.
pub const ICACHE_LINES: usize = 512;
/// Lines of the data cache.
pub const DCACHE_LINES: usize = 512;

/// All bytes of the instruction cache.
const ICACHE_BYTES: usize = ICACHE_LINES * ICACHE_LINE as usize;
/// All bytes of the data cache.
const DCACHE_BYTES: usize = DCACHE_LINES * DCACHE_LINE as usize;

/// A line that the caller must write to memory.
#[derive(Clone, Copy, Debug, Eq, PartialEq)]
#[cfg_attr(feature = "serde", derive(serde::Serialize, serde::Deserialize))]
pub struct Writeback<const N: usize> {
    /// The physical address of its first byte.
    pub addr: u32,
    /// Its bytes.
    #[cfg_attr(feature = "serde", serde(with = "crate::arrays"))]
    pub data: [u8; N],
}

impl<const N: usize> Writeback<N> {
    /// A line that is written back, if it is.
    #[inline(always)]
    fn of(eviction: Eviction, data: [u8; N]) -> Option<Self> {
        refusal::none(eviction.refused);
        eviction.evict.then_some(Self { addr: eviction.addr, data })
    }
}

/// The data cache: 8 KiB, written back.
#[derive(Clone, Debug, Eq, PartialEq)]
#[cfg_attr(feature = "serde", derive(serde::Serialize, serde::Deserialize))]
pub struct Dcache {
    /// The lines' bytes, in memory order.
    #[cfg_attr(feature = "serde", serde(with = "crate::arrays"))]
    pub lines: [u8; DCACHE_BYTES],
    /// The lines' tag words.
    #[cfg_attr(feature = "serde", serde(with = "crate::arrays"))]
    pub tags: [u32; DCACHE_LINES],
}

impl Default for Dcache {
    fn default() -> Self {
        Self::new()
    }
}

impl Dcache {
    /// A cache with every line invalid.
    #[must_use]
    pub fn new() -> Self {
        let mut fresh = Self { lines: [0; DCACHE_BYTES], tags: [0; DCACHE_LINES] };
        refusal::none(ffi::rimjhodek_dcache_new(&mut fresh.lines, &mut fresh.tags));
        fresh
    }

    /// The address that line `index`, modulo 512, came from.
    #[must_use]
    #[inline(always)]
    pub fn resident_addr(&self, index: usize) -> u32 {
        let resident = ffi::rimjhodek_dcache_resident_addr(&self.tags, index);
        refusal::none(resident.refused);
        resident.value as u32
    }

    /// Is the line of `addr` there?
    #[must_use]
    #[inline(always)]
    pub fn hits(&self, addr: u32) -> bool {
        ffi::rimjhodek_dcache_hit(&self.tags, addr)
    }

    /// What an access to `addr` must do first: nothing where the line is there, else a fill, before
    /// which a dirty line is written back.
    #[must_use]
    #[inline(always)]
    pub fn miss_plan(&self, addr: u32) -> Option<Option<Writeback<16>>> {
        let planned = ffi::rimjhodek_dcache_miss_plan(&self.lines, &self.tags, addr);
        refusal::none(planned.plan.refused);
        match planned.plan.plan {
            0 => None,
            1 => Some(None),
            2 => Some(Some(Writeback { addr: planned.plan.addr, data: planned.data })),
            plan => unreachable!("no plan has the number {plan}"),
        }
    }

    /// A filled line.
    #[inline(always)]
    pub fn install(&mut self, addr: u32, data: [u8; 16]) {
        refusal::none(ffi::rimjhodek_dcache_install(&mut self.lines, &mut self.tags, addr, &data));
    }

    /// `len` bytes at `addr`, the first of them highest. The line must be there; that is not
    /// tested.
    ///
    /// # Panics
    ///
    /// Where `len` is 0 or over 8, or the access goes past its line's end.
    #[must_use]
    #[track_caller]
    #[inline(always)]
    pub fn read(&self, addr: u32, len: usize) -> u64 {
        let read = ffi::rimjhodek_dcache_read(&self.lines, addr, len);
        refusal::none(read.refused);
        read.value
    }

    /// The low `len` bytes of `value` to `addr`, whose line is dirty then. The line must be there;
    /// that is not tested.
    ///
    /// # Panics
    ///
    /// Where `len` is 0 or over 8, or the access goes past its line's end.
    #[track_caller]
    #[inline(always)]
    pub fn write(&mut self, addr: u32, len: usize, value: u64) {
        refusal::none(ffi::rimjhodek_dcache_write(
            &mut self.lines,
            &mut self.tags,
            addr,
            len,
            value,
        ));
    }

    /// `Index_Load_Tag`: the tag of `addr`'s line, as `TagLo`.
    #[must_use]
    #[inline(always)]
    pub fn load_tag(&self, addr: u32) -> u32 {
        let tag_lo = ffi::rimjhodek_dcache_load_tag(&self.tags, addr);
        refusal::none(tag_lo.refused);
        tag_lo.value as u32
    }

    /// `Index_Store_Tag`: `TagLo` to the tag of `addr`'s line.
    #[inline(always)]
    pub fn store_tag(&mut self, addr: u32, tag_lo: u32) {
        refusal::none(ffi::rimjhodek_dcache_store_tag(&mut self.tags, addr, tag_lo));
    }

    /// Takes `addr`'s line for write-back where it is dirty. `clean` clears dirty, `invalidate`
    /// valid as well.
    #[inline(always)]
    pub fn flush_index(
        &mut self,
        addr: u32,
        invalidate: bool,
        clean: bool,
    ) -> Option<Writeback<16>> {
        let flushed =
            ffi::rimjhodek_dcache_flush_index(&self.lines, &mut self.tags, addr, invalidate, clean);
        Writeback::of(flushed.eviction, flushed.data)
    }

    /// `Create_Dirty_Exclusive`: claims the line for `addr` without a fill. Its bytes stay as they
    /// are.
    #[inline(always)]
    pub fn create_dirty_exclusive(&mut self, addr: u32) -> Option<Writeback<16>> {
        let created =
            ffi::rimjhodek_dcache_create_dirty_exclusive(&self.lines, &mut self.tags, addr);
        Writeback::of(created.eviction, created.data)
    }
}

/// The instruction cache: 16 KiB.
#[derive(Clone, Debug, Eq, PartialEq)]
#[cfg_attr(feature = "serde", derive(serde::Serialize, serde::Deserialize))]
pub struct Icache {
    /// The lines' bytes, in memory order.
    #[cfg_attr(feature = "serde", serde(with = "crate::arrays"))]
    pub lines: [u8; ICACHE_BYTES],
    /// The lines' tag words.
    #[cfg_attr(feature = "serde", serde(with = "crate::arrays"))]
    pub tags: [u32; ICACHE_LINES],
}

impl Default for Icache {
    fn default() -> Self {
        Self::new()
    }
}

impl Icache {
    /// A cache with every line invalid.
    #[must_use]
    pub fn new() -> Self {
        let mut fresh = Self { lines: [0; ICACHE_BYTES], tags: [0; ICACHE_LINES] };
        refusal::none(ffi::rimjhodek_icache_new(&mut fresh.lines, &mut fresh.tags));
        fresh
    }

    /// The address that line `index`, modulo 512, came from.
    #[must_use]
    #[inline(always)]
    pub fn resident_addr(&self, index: usize) -> u32 {
        let resident = ffi::rimjhodek_icache_resident_addr(&self.tags, index);
        refusal::none(resident.refused);
        resident.value as u32
    }

    /// Is the line of `addr` there?
    #[must_use]
    #[inline(always)]
    pub fn hits(&self, addr: u32) -> bool {
        ffi::rimjhodek_icache_hit(&self.tags, addr)
    }

    /// The instruction at `addr`. The line must be there; that is not tested.
    ///
    /// # Panics
    ///
    /// Where the word goes past its line's end.
    #[must_use]
    #[track_caller]
    #[inline(always)]
    pub fn read_word(&self, addr: u32) -> u32 {
        let word = ffi::rimjhodek_icache_read_word(&self.lines, addr);
        refusal::none(word.refused);
        word.value as u32
    }

    /// A filled line.
    #[inline(always)]
    pub fn install(&mut self, addr: u32, data: [u8; 32]) {
        refusal::none(ffi::rimjhodek_icache_install(&mut self.lines, &mut self.tags, addr, &data));
    }

    /// `Index_Load_Tag`: the tag of `addr`'s line, as `TagLo`.
    #[must_use]
    #[inline(always)]
    pub fn load_tag(&self, addr: u32) -> u32 {
        let tag_lo = ffi::rimjhodek_icache_load_tag(&self.tags, addr);
        refusal::none(tag_lo.refused);
        tag_lo.value as u32
    }

    /// `Index_Store_Tag`: `TagLo` to the tag of `addr`'s line.
    #[inline(always)]
    pub fn store_tag(&mut self, addr: u32, tag_lo: u32) {
        refusal::none(ffi::rimjhodek_icache_store_tag(&mut self.tags, addr, tag_lo));
    }

    /// `addr`'s line is no longer valid; it keeps its tag.
    #[inline(always)]
    pub fn invalidate_index(&mut self, addr: u32) {
        refusal::none(ffi::rimjhodek_icache_invalidate_index(&mut self.tags, addr));
    }

    /// The same, where the line is that of `addr`.
    #[inline(always)]
    pub fn hit_invalidate(&mut self, addr: u32) {
        refusal::none(ffi::rimjhodek_icache_hit_invalidate(&mut self.tags, addr));
    }

    /// `Hit_Write_Back`: the line for write-back, where it is that of `addr`.
    #[must_use]
    #[inline(always)]
    pub fn flush_hit(&self, addr: u32) -> Option<Writeback<32>> {
        let flushed = ffi::rimjhodek_icache_flush_hit(&self.lines, &self.tags, addr);
        Writeback::of(flushed.eviction, flushed.data)
    }
}
