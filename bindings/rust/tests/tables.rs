//! The tables that the binding writes again are what the library does.

use rimjhodek::cop0::{self, ARCH_MASK, Cop0, WIDE, WRITE_MASK, reg, word};

#[test]
fn a_write_changes_the_bits_under_its_mask() {
    for n in 0..32 {
        let at = usize::from(n);
        let mut zeros = Cop0 { words: [0; 38] };
        zeros.write(n, u64::MAX);
        assert_eq!(zeros.words[at], WRITE_MASK[at], "register {n}");
        let mut ones = Cop0 { words: [u64::MAX; 38] };
        ones.write(n, 0);
        assert_eq!(ones.words[at], !WRITE_MASK[at], "register {n}");
    }
}

#[test]
fn the_hardware_writes_the_bits_that_a_register_has() {
    for n in 0..32 {
        let at = usize::from(n);
        let mut cop0 = Cop0 { words: [0; 38] };
        cop0.set_hardware(n, u64::MAX);
        assert_eq!(cop0.words[at], ARCH_MASK[at], "register {n}");
    }
}

#[test]
fn a_read_has_the_bits_that_a_register_has() {
    let latch = 0x0123_4567_89AB_CDEF;
    let mut cop0 = Cop0 { words: [u64::MAX; 38] };
    cop0.words[word::NOW..].copy_from_slice(&[0, 0, 0, 0, 0, latch]);
    for n in 0..32 {
        let expected = match n {
            _ if Cop0::UNUSED.contains(&n) => latch,
            reg::COUNT => 0,
            reg::CONFIG => ARCH_MASK[usize::from(n)] | 0x0006_6460,
            _ => ARCH_MASK[usize::from(n)],
        };
        assert_eq!(cop0.read(n), expected, "register {n}");
    }
}

#[test]
fn which_registers_are_wide_or_unused() {
    for n in 0..=255u8 {
        assert_eq!(cop0::is_wide(n), WIDE >> (n % 32) & 1 == 1, "register {n}");
        assert_eq!(Cop0::is_unused(n), Cop0::UNUSED.contains(&(n % 32)), "register {n}");
    }
}

#[test]
fn fresh_registers() {
    let mut words = [0; 38];
    words[usize::from(reg::STATUS)] = 0x0040_0004;
    words[usize::from(reg::RANDOM)] = 31;
    words[usize::from(reg::CONFIG)] = 0x8000;
    words[usize::from(reg::PRID)] = 0x0B22;
    words[word::EC] = 7;
    assert_eq!(Cop0::new(), Cop0 { words });
    assert_eq!(Cop0::default(), Cop0::new());
}
