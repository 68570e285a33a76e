//! The original's caches: what the scope (document 01) turns away, and a line as it is stored.

use original::cache::{Dcache, Icache, DCACHE_LINE, DCACHE_LINES, ICACHE_LINE, ICACHE_LINES};

use crate::answers;
use crate::machine::Refusal;

/// The longest access to the data cache, in bytes.
const LONGEST: u64 = 8;

/// An instruction, in bytes.
const WORD: u32 = 4;

pub fn read(dcache: &Dcache, addr: u32, length: u64) -> Result<u64, Refusal> {
    Ok(dcache.read(addr, checked(addr, length)?))
}

pub fn write(dcache: &mut Dcache, addr: u32, length: u64, value: u64) -> Result<(), Refusal> {
    dcache.write(addr, checked(addr, length)?, value);
    Ok(())
}

/// A length that an access at an address may have. The original takes no bytes for 0, loses the
/// first of nine, and panics past a line's end.
fn checked(addr: u32, length: u64) -> Result<usize, Refusal> {
    if length == 0 || length > LONGEST {
        return Err(Refusal::LENGTH);
    }
    if u64::from(addr % DCACHE_LINE) + length > DCACHE_LINE.into() {
        return Err(Refusal::OFFSET);
    }
    Ok(length as usize)
}

/// The original panics past a line's end here as well.
pub fn read_word(icache: &Icache, addr: u32) -> Result<u32, Refusal> {
    if addr % ICACHE_LINE > ICACHE_LINE - WORD {
        return Err(Refusal::OFFSET);
    }
    Ok(icache.read_word(addr))
}

/// The answer to `d_line`. A line's fields are private, and all can be told by the operations: a
/// dirty line that is not valid by the cache's no longer being equal once the line is clean.
pub fn data_line(dcache: &Dcache, index: u64) -> String {
    let addr = (index % DCACHE_LINES as u64) as u32 * DCACHE_LINE;
    let halves = [addr, addr + DCACHE_LINE / 2].map(|addr| dcache.read(addr, 8).to_be_bytes());
    let mut clean = dcache.clone();
    clean.flush_index(addr, false, true);
    let (tag, valid) = tag_and_valid(dcache.load_tag(addr));
    answers::cache_line(tag, valid, clean != *dcache, &halves.concat())
}

/// The answer to `i_line`. An instruction is never dirty.
pub fn instruction_line(icache: &Icache, index: u64) -> String {
    let addr = (index % ICACHE_LINES as u64) as u32 * ICACHE_LINE;
    let words = (addr..addr + ICACHE_LINE).step_by(WORD as usize);
    let bytes: Vec<u8> = words.flat_map(|addr| icache.read_word(addr).to_be_bytes()).collect();
    let (tag, valid) = tag_and_valid(icache.load_tag(addr));
    answers::cache_line(tag, valid, false, &bytes)
}

/// A line's tag and whether it is valid, from TagLo as it is loaded: PTagLo, and any PState but 0.
fn tag_and_valid(tag_lo: u32) -> (u32, bool) {
    (tag_lo >> 8 & 0xF_FFFF, tag_lo >> 6 & 3 != 0)
}

#[cfg(test)]
mod tests {
    use super::*;

    /// The line of an index as the cache's derived `Debug` text has it.
    fn told(cache: &impl std::fmt::Debug, index: usize) -> String {
        let text = format!("{cache:?}");
        let line = text.split("Line { ").nth(1 + index).unwrap();
        let field = |name: &str| line.split(&format!("{name}: ")).nth(1).unwrap();
        let flag = |name| field(name).starts_with("true");
        let tag = field("tag").split(',').next().unwrap().parse().unwrap();
        let bytes = field("data").trim_start_matches('[').split(']').next().unwrap();
        let bytes: Vec<u8> = bytes.split(", ").map(|byte| byte.parse().unwrap()).collect();
        answers::cache_line(tag, flag("valid"), flag("dirty"), &bytes)
    }

    /// Each pair of valid and dirty, in the first line, the last and one between.
    #[test]
    fn data_lines_are_as_stored() {
        for index in [0, 257, 511] {
            let addr = index * DCACHE_LINE;
            let mut dcache = Dcache::new();
            for (pstate, writes) in [(0, false), (0, true), (3, false), (3, true)] {
                dcache.store_tag(addr, 0xABCDE << 8 | pstate << 6);
                if writes {
                    dcache.write(addr + 5, 8, 0x1122_3344_5566_7788);
                }
                let answer = data_line(&dcache, u64::from(index) + 512);
                assert_eq!(answer, told(&dcache, index as usize));
                let flags = format!("line 00000000000abcde {} {} ", pstate / 3, u8::from(writes));
                assert!(answer.starts_with(&flags), "{answer}");
            }
            let bytes = " 00000000001122334455667788000000";
            assert!(data_line(&dcache, index.into()).ends_with(bytes));
        }
    }

    #[test]
    fn instruction_lines_are_as_stored() {
        let mut icache = Icache::new();
        icache.install(0xFFFF_FFE0, std::array::from_fn(|place| place as u8));
        let bytes = "000102030405060708090a0b0c0d0e0f101112131415161718191a1b1c1d1e1f";
        let answer = instruction_line(&icache, u64::MAX);
        assert_eq!(answer, format!("line 00000000000fffff 1 0 {bytes}"));
        assert_eq!(answer, told(&icache, 511));
        icache.invalidate_index(0xFFFF_FFE0);
        assert_eq!(instruction_line(&icache, 511), told(&icache, 511));
    }

    /// The scope's refusals 2 and 3, the length first, and the accesses next to them.
    #[test]
    fn refused_accesses() {
        let mut dcache = Dcache::new();
        let fresh = dcache.clone();
        for (addr, length, refusal) in [
            (0, 0, Refusal::LENGTH),
            (0, 9, Refusal::LENGTH),
            (15, u64::MAX, Refusal::LENGTH),
            (15, 2, Refusal::OFFSET),
            (9, 8, Refusal::OFFSET),
        ] {
            assert_eq!(read(&dcache, addr, length), Err(refusal));
            assert_eq!(write(&mut dcache, addr, length, 1), Err(refusal));
        }
        assert_eq!(dcache, fresh);
        assert_eq!(write(&mut dcache, 8, 8, 1), Ok(()));
        assert_eq!(read(&dcache, 15, 1), Ok(1));
        let icache = Icache::new();
        assert_eq!(read_word(&icache, 0x1C), Ok(0));
        assert_eq!(read_word(&icache, 0x1D), Err(Refusal::OFFSET));
        assert_eq!(read_word(&icache, 0x1F), Err(Refusal::OFFSET));
        assert_eq!(read_word(&icache, 0x20), Ok(0));
    }
}
