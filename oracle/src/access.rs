//! The access that Status asks for: as the original's pipeline makes it, but for what document 02
//! turns away.

use original::addr::{Access, Mode};

use crate::machine::Refusal;

/// Bits of Status, as the pipeline names them.
const EXL_OR_ERL: u64 = 0b110;
const ERL: u64 = 1 << 2;
const KSU: u64 = 0b11 << 3;
const UX: u64 = 1 << 5;
const SX: u64 = 1 << 6;
const KX: u64 = 1 << 7;

/// The pipeline's access. Document 02 turns away a Status that names no mode, KSU 3 with neither EXL
/// nor ERL, where the pipeline falls back to kernel mode: in nothing else do the two differ.
pub fn asked_for(status: u64) -> Result<Access, Refusal> {
    if status & (KSU | EXL_OR_ERL) == KSU {
        return Err(Refusal::MODE);
    }
    Ok(access_mode(status))
}

/// `access_mode` of the original's pipeline, pipeline.rs, lines 1453 to 1485. It is written here
/// since this driver is compiled over the binding too, which has no pipeline; a test holds it to the
/// original's own lines.
fn access_mode(status: u64) -> Access {
    // Lines 1459 to 1473.
    let mode = if status & EXL_OR_ERL != 0 {
        Mode::Kernel
    } else {
        match (status & KSU) >> 3 {
            1 => Mode::Supervisor,
            2 => Mode::User,
            _ => Mode::Kernel,
        }
    };
    // Lines 1475 to 1479.
    let wide = match mode {
        Mode::User => status & UX != 0,
        Mode::Supervisor => status & SX != 0,
        Mode::Kernel => status & KX != 0,
    };
    // Lines 1480 to 1484, and `erl` of line 1539.
    Access { mode, wide, erl: status & ERL != 0 }
}

#[cfg(test)]
mod tests {
    use original::cop0::{reg, Cop0};
    use original::pipeline;

    use super::*;

    /// What is written here is what the original's own lines make, under each low byte of Status
    /// and each other bit.
    #[test]
    fn is_the_original_s() {
        for status in (0..256).chain((8..64).map(|bit| 1 << bit)) {
            let mut cop0 = Cop0::new();
            cop0.set_hardware(reg::STATUS, status);
            assert_eq!(access_mode(cop0.read(reg::STATUS)), pipeline::access_mode(&cop0));
        }
    }

    /// The 128 combinations of KSU, EXL, ERL and the three widths, by document 02's sentence:
    /// eight are turned away, and each of them is the kernel's in the pipeline.
    #[test]
    fn every_combination() {
        let mut refused = 0;
        for status in (0..256).step_by(2) {
            let bit = |number: u8| status >> number & 1 == 1;
            let (ksu, exl, erl) = (status >> 3 & 3, bit(1), bit(2));
            let of = |mode, wide| Ok(Access { mode, wide, erl });
            let asked = match ksu {
                _ if exl || erl || ksu == 0 => of(Mode::Kernel, bit(7)),
                1 => of(Mode::Supervisor, bit(6)),
                2 => of(Mode::User, bit(5)),
                _ => Err(Refusal::MODE),
            };
            assert_eq!(asked_for(status), asked);
            if asked.is_err() {
                refused += 1;
                assert_eq!(Ok(access_mode(status)), of(Mode::Kernel, bit(7)));
            }
        }
        assert_eq!(refused, 8);
    }
}
