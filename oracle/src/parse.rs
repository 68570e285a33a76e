//! The trace format: lines, words and numbers, and what can be wrong with them.
//!
//! All of it works on bytes: a trace may hold any, and outside a comment one that is no ASCII is a
//! character like the rest.

use crate::exceptions::{self, EXCEPTIONS, VECTOR_KINDS};
use crate::operations::{self, Operation};

/// A whole trace is at most this many bytes.
pub const LIMIT: usize = 1_048_576;

/// An operand holds at most this many digits, leading zeros among them.
const DIGITS: usize = 16;

/// What ends a run, in the order in which a line is checked.
#[derive(Clone, Copy, Debug, Eq, PartialEq)]
pub enum Fault {
    UnknownOperation,
    WrongNumberOfOperands,
    BadNumber,
    OutOfRange,
}

impl Fault {
    pub const ALL: [Self; 4] =
        [Self::UnknownOperation, Self::WrongNumberOfOperands, Self::BadNumber, Self::OutOfRange];

    /// The words that follow `line N: `.
    pub fn words(self) -> &'static str {
        match self {
            Self::UnknownOperation => "unknown operation",
            Self::WrongNumberOfOperands => "wrong number of operands",
            Self::BadNumber => "bad number",
            Self::OutOfRange => "out of range",
        }
    }
}

/// What an operand may hold.
#[derive(Clone, Copy, Debug, Eq, PartialEq)]
pub enum Operand {
    /// 0 or 1.
    Flag,
    /// 0 kernel, 1 supervisor, 2 user.
    Mode,
    /// 8 bits.
    Byte,
    /// 32 bits.
    Word,
    /// 64 bits.
    Long,
    /// A vector's kind, by its number.
    Vector,
    /// An exception, by its number.
    Exception,
    /// The operands A and B of the exception that the line starts with.
    A,
    B,
    /// Nothing, which is written 0.
    Unused,
}

impl Operand {
    /// The greatest number that it may be on a line of these numbers.
    pub fn greatest(self, line: &[u64]) -> u64 {
        match self {
            Self::Flag => 1,
            Self::Mode => 2,
            Self::Byte => u64::from(u8::MAX),
            Self::Word => u64::from(u32::MAX),
            Self::Long => u64::MAX,
            Self::Vector => VECTOR_KINDS.len() as u64 - 1,
            Self::Exception => EXCEPTIONS.len() as u64 - 1,
            Self::A => exceptions::detail(line[0], 0).greatest(line),
            Self::B => exceptions::detail(line[0], 1).greatest(line),
            Self::Unused => 0,
        }
    }
}

/// An operation with operands that fit it.
pub struct Call {
    pub operation: &'static Operation,
    pub operands: Vec<u64>,
}

/// The lines of a trace, without their ends.
pub struct Lines<'a> {
    rest: &'a [u8],
}

/// A last line without an end counts; nothing after the last end is no line.
pub fn lines(trace: &[u8]) -> Lines<'_> {
    Lines { rest: trace }
}

impl<'a> Iterator for Lines<'a> {
    type Item = &'a [u8];

    fn next(&mut self) -> Option<&'a [u8]> {
        let line = self.rest.split_inclusive(|byte| *byte == b'\n').next()?;
        self.rest = &self.rest[line.len()..];
        // A `\r` that no `\n` follows stays: it is a character like the rest.
        let Some(line) = line.strip_suffix(b"\n") else {
            return Some(line);
        };
        Some(line.strip_suffix(b"\r").unwrap_or(line))
    }
}

/// The operation that a line asks for, or none where the line is passed over.
pub fn parse(line: &[u8]) -> Result<Option<Call>, Fault> {
    let mut words = words(line);
    let Some(name) = words.next().filter(|word| word[0] != b'#') else {
        return Ok(None);
    };
    let operation = operations::find(name).ok_or(Fault::UnknownOperation)?;
    let words: Vec<&[u8]> = words.collect();
    if words.len() != operation.operands.len() {
        return Err(Fault::WrongNumberOfOperands);
    }
    // Each check goes over the whole line before the next one starts.
    let operands: Option<Vec<u64>> = words.into_iter().map(number).collect();
    let operands = operands.ok_or(Fault::BadNumber)?;
    let mut pairs = operands.iter().zip(operation.operands);
    if !pairs.all(|(value, operand)| *value <= operand.greatest(&operands)) {
        return Err(Fault::OutOfRange);
    }
    Ok(Some(Call { operation, operands }))
}

/// What stands between spaces and tabs.
fn words(line: &[u8]) -> impl Iterator<Item = &[u8]> {
    line.split(|byte| matches!(byte, b' ' | b'\t')).filter(|word| !word.is_empty())
}

fn number(word: &[u8]) -> Option<u64> {
    if word.len() > DIGITS {
        return None;
    }
    word.iter().try_fold(0, |value, byte| {
        let digit = char::from(*byte).to_digit(16)?;
        Some(value << 4 | u64::from(digit))
    })
}

#[cfg(test)]
mod tests {
    use super::*;

    fn fault(line: &[u8]) -> Option<Fault> {
        parse(line).err()
    }

    fn operands(line: &[u8]) -> Vec<u64> {
        parse(line).ok().flatten().unwrap().operands
    }

    #[test]
    fn line_ends() {
        let all = |trace| lines(trace).collect::<Vec<&[u8]>>();
        assert_eq!(all(b""), Vec::<&[u8]>::new());
        assert_eq!(all(b"\n"), [b""]);
        assert_eq!(all(b"a\r\n\r\nb"), [b"a" as &[u8], b"", b"b"]);
        assert_eq!(all(b"a\r\r\nb\r"), [b"a\r", b"b\r"]);
    }

    #[test]
    fn passed_over() {
        for line in [b"" as &[u8], b" \t ", b"#", b"\t # mfc0 zz", b"#\xff\0\r", b"##"] {
            assert!(matches!(parse(line), Ok(None)), "{line:?}");
        }
    }

    #[test]
    fn numbers() {
        assert_eq!(operands(b"write 01 0000000000000ABc"), [1, 0xabc]);
        assert_eq!(operands(b"\tset_ip  ff\t\t0001 "), [255, 1]);
        assert_eq!(operands(b"set_now ffffffffFFFFFFFF"), [u64::MAX]);
        assert_eq!(fault(b"set_now 00000000000000000"), Some(Fault::BadNumber));
        assert_eq!(fault(b"set_now 0x1"), Some(Fault::BadNumber));
        assert_eq!(fault(b"set_now 1\r"), Some(Fault::BadNumber));
        assert_eq!(fault(b"set_now \xc3\xa9"), Some(Fault::BadNumber));
        assert_eq!(fault(b"set_now +1"), Some(Fault::BadNumber));
    }

    #[test]
    fn bounds() {
        assert_eq!(operands(b"segment 0 2 1 1"), [0, 2, 1, 1]);
        assert_eq!(fault(b"segment 0 3 0 0"), Some(Fault::OutOfRange));
        assert_eq!(operands(b"page_size ffffffff"), [u64::from(u32::MAX)]);
        assert_eq!(fault(b"page_size 100000000"), Some(Fault::OutOfRange));
        assert_eq!(fault(b"lookup 0 100 0"), Some(Fault::OutOfRange));
        assert_eq!(operands(b"vector 0 3"), [0, 3]);
        assert_eq!(fault(b"vector 0 4"), Some(Fault::OutOfRange));
    }

    /// EXC bounds A and B.
    #[test]
    fn bounds_of_an_exception() {
        assert_eq!(operands(b"dispatch d 0 0 0 1 0"), [13, 0, 0, 0, 1, 0]);
        assert_eq!(operands(b"dispatch a 1 1 0 0 0"), [10, 1, 1, 0, 0, 0]);
        assert_eq!(operands(b"dispatch 8 ff 0 0 0 0"), [8, 255, 0, 0, 0, 0]);
        let over = [
            b"dispatch e 0 0 0 0 0" as &[u8],
            b"dispatch ffffffffffffffff 0 0 0 0 0",
            b"dispatch 0 1 0 0 0 0",
            b"dispatch 1 2 0 0 0 0",
            b"dispatch 1 0 1 0 0 0",
            b"dispatch 7 100 0 0 0 0",
            b"dispatch a 0 2 0 0 0",
            b"dispatch 0 0 0 0 2 0",
        ];
        for line in over {
            assert_eq!(fault(line), Some(Fault::OutOfRange), "{line:?}");
        }
        assert_eq!(fault(b"dispatch e 1 1 0 0 g"), Some(Fault::BadNumber));
    }

    #[test]
    fn bounds_of_a_cache_operation() {
        assert_eq!(operands(b"d_hits ffffffff"), [u64::from(u32::MAX)]);
        assert_eq!(operands(b"i_line ffffffffffffffff"), [u64::MAX]);
        assert_eq!(operands(b"d_read 0 ffffffffffffffff"), [0, u64::MAX]);
        for line in [
            b"d_hits 100000000" as &[u8],
            b"i_install 100000000 0 0 0 0",
            b"d_read 100000000 0",
            b"d_store_tag 0 100000000",
            b"d_flush_index 0 0 2",
        ] {
            assert_eq!(fault(line), Some(Fault::OutOfRange), "{line:?}");
        }
        assert_eq!(fault(b"i_install 0 0 0 0"), Some(Fault::WrongNumberOfOperands));
    }

    #[test]
    fn order_of_the_checks() {
        assert_eq!(fault(b"Count zz"), Some(Fault::UnknownOperation));
        assert_eq!(fault(b"count\r"), Some(Fault::UnknownOperation));
        assert_eq!(fault(b"count#"), Some(Fault::UnknownOperation));
        assert_eq!(fault(b"count # why"), Some(Fault::WrongNumberOfOperands));
        assert_eq!(fault(b"mfc0 zz 1"), Some(Fault::WrongNumberOfOperands));
        assert_eq!(fault(b"set_ip 100 g"), Some(Fault::BadNumber));
        assert_eq!(fault(b"set_ip 0 2"), Some(Fault::OutOfRange));
        assert_eq!(fault(b"set_ip 100 1"), Some(Fault::OutOfRange));
    }
}
