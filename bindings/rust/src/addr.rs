//! Segments, modes and translation.

use crate::Refusal;
use crate::ffi;
use crate::refusal;
use crate::tlb::{Tlb, TlbFault};

/// Does an access go through the caches?
#[derive(Clone, Copy, Debug, Eq, PartialEq, Hash)]
#[cfg_attr(feature = "serde", derive(serde::Serialize, serde::Deserialize))]
#[repr(u8)]
pub enum Cached {
    /// Through them.
    Yes,
    /// Past them.
    No,
}

impl Cached {
    #[inline(always)]
    fn of(cached: bool) -> Self {
        if cached { Self::Yes } else { Self::No }
    }
}

/// A translated address. Laid out as [`ffi::Looked`] is.
#[derive(Clone, Copy, Debug, Eq, PartialEq, Hash)]
#[cfg_attr(feature = "serde", derive(serde::Serialize, serde::Deserialize))]
#[repr(C)]
pub struct Physical {
    /// Whether the access is cached.
    pub cached: Cached,
    /// The number of the TLB's entry that gave the address, 0 to 31, or none in a segment that is
    /// reached directly. The original does not tell it.
    pub entry: Option<u8>,
    /// The physical address.
    pub addr: u32,
}

/// How an address is reached.
#[derive(Clone, Copy, Debug, Eq, PartialEq)]
#[cfg_attr(feature = "serde", derive(serde::Serialize, serde::Deserialize))]
pub enum Segment {
    /// Directly.
    Direct {
        /// The physical address.
        addr: u32,
        /// Whether the access is cached.
        cached: Cached,
    },
    /// By the TLB.
    Mapped,
    /// Not at all: an address error, before the TLB is asked.
    Invalid,
}

/// The mode that an access is made in.
#[derive(Clone, Copy, Debug, Eq, PartialEq)]
#[cfg_attr(feature = "serde", derive(serde::Serialize, serde::Deserialize))]
#[repr(u8)]
pub enum Mode {
    /// `Status.KSU` is 0, or `EXL` or `ERL` is set.
    Kernel,
    /// `Status.KSU` is 1, and neither is set.
    Supervisor,
    /// `Status.KSU` is 2, and neither is set.
    User,
}

/// What decides about an address beside the address itself. Laid out as [`ffi::By`] is.
#[derive(Clone, Copy, Debug, Eq, PartialEq)]
#[cfg_attr(feature = "serde", derive(serde::Serialize, serde::Deserialize))]
#[repr(C, align(4))]
pub struct Access {
    /// The mode.
    pub mode: Mode,
    /// 64-bit addressing: KX, SX or UX of Status, which of them is the mode's.
    pub wide: bool,
    /// `Status.ERL`, under which the low 2 GiB are direct and uncached.
    pub erl: bool,
}

impl Access {
    /// The kernel's, with 32-bit addressing.
    #[must_use]
    pub const fn kernel() -> Self {
        Self { mode: Mode::Kernel, wide: false, erl: false }
    }

    /// The access that Status asks for, as the original's pipeline makes it (`access_mode`), which
    /// takes KSU 3 for the kernel's.
    ///
    /// # Errors
    ///
    /// [`Refusal::Mode`] where KSU is 3, and EXL and ERL are 0.
    pub fn from_status(status: u64) -> Result<Self, Refusal> {
        let granted = ffi::rimjhodek_from_status(status);
        let mode = match (granted.refused, granted.mode) {
            (0, 0) => Mode::Kernel,
            (0, 1) => Mode::Supervisor,
            (0, _) => Mode::User,
            (refused, _) => return Err(Refusal::numbered(refused)),
        };
        Ok(Self { mode, wide: granted.wide, erl: granted.erl })
    }
}

/// How an address is reached by an access, without the TLB.
#[must_use]
#[inline(always)]
pub fn segment(vaddr: u64, access: Access) -> Segment {
    let reached = ffi::rimjhodek_segment(vaddr, access.into());
    refusal::none(reached.refused);
    match reached.kind {
        0 => Segment::Direct { addr: reached.addr, cached: Cached::of(reached.cached) },
        1 => Segment::Mapped,
        _ => Segment::Invalid,
    }
}

/// Why a translation failed.
#[derive(Clone, Copy, Debug, Eq, PartialEq)]
#[cfg_attr(feature = "serde", derive(serde::Serialize, serde::Deserialize))]
pub enum TranslateError {
    /// The address is not of the access's mode: an address error.
    Address,
    /// The TLB's own fault.
    Tlb(TlbFault),
}

impl TranslateError {
    /// The error that has a number, of those from 1 that [`ffi::Looked`] holds.
    #[cold]
    #[inline(never)]
    fn numbered(error: u8) -> Self {
        match error {
            4 => Self::Address,
            fault => Self::Tlb(TlbFault::numbered(fault)),
        }
    }
}

/// Directly where the segment says so, else by the TLB.
///
/// # Errors
///
/// [`TranslateError::Address`] or the TLB's fault. Two entries that match shut the TLB down.
#[inline(always)]
pub fn translate_via(
    tlb: &mut Tlb,
    vaddr: u64,
    asid: u8,
    store: bool,
    access: Access,
) -> Result<Physical, TranslateError> {
    let looked = ffi::rimjhodek_translate_via(&mut tlb.words, vaddr, asid, store, access.into());
    if looked.error == 0 {
        let entry = (looked.entry != ffi::NO_ENTRY).then_some(looked.entry);
        return Ok(Physical { cached: Cached::of(!looked.uncached), entry, addr: looked.addr });
    }
    Err(TranslateError::numbered(looked.error))
}
