//! In place of the original's decoder: what the register file names of it.

/// A decoded instruction, of which `cop0_reg` reads the `rd` field.
#[derive(Clone, Copy)]
pub struct Decoded {
    pub rd: u8,
}
