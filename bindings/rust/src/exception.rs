//! Exceptions: their codes and vectors, taking one, and returning from it.

use crate::cop0::Cop0;
use crate::ffi::{self, Exc, Taken};
use crate::refusal;

/// The values of `Cause.ExcCode`.
pub mod exc_code {
    /// Interrupt.
    pub const INT: u64 = 0;
    /// TLB Modified.
    pub const MOD: u64 = 1;
    /// TLB miss on a load or a fetch.
    pub const TLBL: u64 = 2;
    /// TLB miss on a store.
    pub const TLBS: u64 = 3;
    /// Address error on a load or a fetch.
    pub const ADEL: u64 = 4;
    /// Address error on a store.
    pub const ADES: u64 = 5;
    /// Bus error on a fetch.
    pub const IBE: u64 = 6;
    /// Bus error on a load or a store.
    pub const DBE: u64 = 7;
    /// `SYSCALL`.
    pub const SYS: u64 = 8;
    /// `BREAK`.
    pub const BP: u64 = 9;
    /// Reserved instruction.
    pub const RI: u64 = 10;
    /// Coprocessor unusable.
    pub const CPU: u64 = 11;
    /// Integer overflow.
    pub const OV: u64 = 12;
    /// Trap.
    pub const TR: u64 = 13;
    /// Floating-point exception.
    pub const FPE: u64 = 15;
    /// Watchpoint.
    pub const WATCH: u64 = 23;
}

/// The exceptions, of the original's `pipeline`.
#[derive(Clone, Copy, Debug, Eq, PartialEq, Hash)]
#[cfg_attr(feature = "serde", derive(serde::Serialize, serde::Deserialize))]
#[repr(u8, align(4))]
pub enum Exception {
    /// An interrupt was accepted.
    Interrupt,
    /// An address that is not aligned, or not of the access's mode.
    AddressError {
        /// The access was a store.
        store: bool,
    },
    /// Integer overflow.
    Overflow,
    /// `SYSCALL`.
    Syscall,
    /// `BREAK`.
    Breakpoint,
    /// A conditional trap whose condition held.
    Trap,
    /// A reserved opcode.
    ReservedInstruction,
    /// A reserved encoding among a coprocessor's instructions.
    CoprocessorReserved {
        /// Which coprocessor, for `Cause.CE`.
        unit: u8,
    },
    /// An instruction of a coprocessor that `Status.CU` turns off.
    CoprocessorUnusable {
        /// Which coprocessor, for `Cause.CE`.
        unit: u8,
    },
    /// The non-maskable interrupt.
    Nmi,
    /// No TLB entry matched.
    TlbRefill {
        /// The access was a store.
        store: bool,
        /// The access was in 64-bit addressing.
        wide: bool,
    },
    /// A TLB entry matched, and its half is not valid.
    TlbInvalid {
        /// The access was a store.
        store: bool,
    },
    /// A store to a page that may not be written.
    TlbModified,
    /// A floating-point exception; `FCSR` says which.
    FloatingPoint,
}

impl Exception {
    /// As it crosses: its number, and the values that it holds.
    #[inline(always)]
    fn exc(self) -> Exc {
        let plain = |number| Exc { number, store: false, wide: false, unit: 0 };
        match self {
            Self::Interrupt => plain(0),
            Self::AddressError { store } => Exc { store, ..plain(1) },
            Self::Overflow => plain(2),
            Self::Syscall => plain(3),
            Self::Breakpoint => plain(4),
            Self::Trap => plain(5),
            Self::ReservedInstruction => plain(6),
            Self::CoprocessorReserved { unit } => Exc { unit, ..plain(7) },
            Self::CoprocessorUnusable { unit } => Exc { unit, ..plain(8) },
            Self::Nmi => plain(9),
            Self::TlbRefill { store, wide } => Exc { store, wide, ..plain(10) },
            Self::TlbInvalid { store } => Exc { store, ..plain(11) },
            Self::TlbModified => plain(12),
            Self::FloatingPoint => plain(13),
        }
    }
}

/// Which vector an exception uses.
#[derive(Clone, Copy, Debug, Eq, PartialEq)]
#[cfg_attr(feature = "serde", derive(serde::Serialize, serde::Deserialize))]
#[repr(u8)]
pub enum VectorKind {
    /// The common one, at 0x180.
    General,
    /// A 32-bit refill's, at 0x000 where EXL was 0.
    TlbRefill,
    /// A 64-bit refill's, at 0x080 where EXL was 0.
    XtlbRefill,
    /// The resets' and NMI's.
    Reset,
}

/// Where a handler starts.
#[must_use]
pub fn vector(status: u64, kind: VectorKind) -> u64 {
    let vector = ffi::rimjhodek_vector(status, kind as u8);
    refusal::none(vector.refused);
    vector.value
}

/// The ExcCode that an exception reports.
#[must_use]
pub fn exc_code_of(exc: Exception) -> u64 {
    let code = ffi::rimjhodek_exc_code_of(exc.exc());
    refusal::none(code.refused);
    code.value
}

/// Which vector an exception uses.
#[must_use]
pub fn vector_kind_of(exc: Exception) -> VectorKind {
    let kind = ffi::rimjhodek_vector_kind_of(exc.exc());
    refusal::none(kind.refused);
    match kind.value {
        0 => VectorKind::General,
        1 => VectorKind::TlbRefill,
        2 => VectorKind::XtlbRefill,
        _ => VectorKind::Reset,
    }
}

/// Does an exception have a faulting address?
#[must_use]
pub fn writes_bad_vaddr(exc: Exception) -> bool {
    let writes = ffi::rimjhodek_writes_bad_vaddr(exc.exc());
    refusal::none(writes.refused);
    writes.is
}

/// The result of taking an exception.
#[derive(Clone, Copy, Debug, Eq, PartialEq)]
#[cfg_attr(feature = "serde", derive(serde::Serialize, serde::Deserialize))]
pub struct Dispatch {
    /// Where to fetch next.
    pub vector: u64,
    /// The pipeline's cycles that the exception costs.
    pub stall_cycles: u32,
}

impl Dispatch {
    #[inline(always)]
    fn of(taken: Taken) -> Self {
        refusal::none(taken.refused);
        Self { vector: taken.vector, stall_cycles: taken.stall_cycles }
    }
}

/// The stall when an exception is taken.
pub const EPILOGUE_STALL: u32 = 2;

/// The non-maskable interrupt.
#[inline(always)]
pub fn nmi(cop0: &mut Cop0, pc: u64) -> Dispatch {
    Dispatch::of(ffi::rimjhodek_nmi(&mut cop0.words, pc))
}

/// Takes an exception. `pc` is the address of the instruction that faulted.
#[inline(always)]
pub fn dispatch(
    cop0: &mut Cop0,
    exc: Exception,
    pc: u64,
    in_delay_slot: bool,
    bad_vaddr: u64,
) -> Dispatch {
    match exc {
        // What a game takes most, apart from the choice between the others.
        Exception::TlbRefill { store, wide } => {
            let exc = Exc { number: 10, store, wide, unit: 0 };
            take(cop0, exc, pc, in_delay_slot, bad_vaddr)
        }
        _ => take(cop0, exc.exc(), pc, in_delay_slot, bad_vaddr),
    }
}

#[inline(always)]
fn take(cop0: &mut Cop0, exc: Exc, pc: u64, in_delay_slot: bool, bad_vaddr: u64) -> Dispatch {
    Dispatch::of(ffi::rimjhodek_dispatch(&mut cop0.words, exc, pc, in_delay_slot, bad_vaddr))
}

/// `ERET`: says where to resume. The link bit is the caller's to clear.
#[must_use]
#[inline(always)]
pub fn eret(cop0: &mut Cop0) -> u64 {
    ffi::rimjhodek_eret(&mut cop0.words)
}
