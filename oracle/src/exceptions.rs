//! The exceptions: a row for each, at its number in the trace format.

use original::exception::VectorKind;
use original::pipeline::Exception;

use crate::operations::byte;
use crate::parse::Operand::{self, Byte, Flag, Unused};

/// One exception, and what its operands A and B hold.
pub struct Row {
    pub details: [Operand; 2],
    make: fn(u64, u64) -> Exception,
}

pub static EXCEPTIONS: [Row; 14] = [
    row(Unused, Unused, |_, _| Exception::Interrupt),
    row(Flag, Unused, |a, _| Exception::AddressError { store: a == 1 }),
    row(Unused, Unused, |_, _| Exception::Overflow),
    row(Unused, Unused, |_, _| Exception::Syscall),
    row(Unused, Unused, |_, _| Exception::Breakpoint),
    row(Unused, Unused, |_, _| Exception::Trap),
    row(Unused, Unused, |_, _| Exception::ReservedInstruction),
    row(Byte, Unused, |a, _| Exception::CoprocessorReserved { unit: byte(a) }),
    row(Byte, Unused, |a, _| Exception::CoprocessorUnusable { unit: byte(a) }),
    row(Unused, Unused, |_, _| Exception::Nmi),
    row(Flag, Flag, |a, b| Exception::TlbRefill { store: a == 1, wide: b == 1 }),
    row(Flag, Unused, |a, _| Exception::TlbInvalid { store: a == 1 }),
    row(Unused, Unused, |_, _| Exception::TlbModified),
    row(Unused, Unused, |_, _| Exception::FloatingPoint),
];

/// The vectors' kinds, each at its number.
pub const VECTOR_KINDS: [VectorKind; 4] =
    [VectorKind::General, VectorKind::TlbRefill, VectorKind::XtlbRefill, VectorKind::Reset];

const fn row(a: Operand, b: Operand, make: fn(u64, u64) -> Exception) -> Row {
    Row { details: [a, b], make }
}

/// What the operand A (place 0) or B (place 1) holds for the exception of a number; nothing, where
/// there is no such exception.
pub fn detail(number: u64, place: usize) -> Operand {
    EXCEPTIONS.get(number as usize).map_or(Unused, |row| row.details[place])
}

/// The exception that a line's first three operands, EXC, A and B, name within their bounds.
pub fn exception(operands: &[u64]) -> Exception {
    (EXCEPTIONS[operands[0] as usize].make)(operands[1], operands[2])
}
