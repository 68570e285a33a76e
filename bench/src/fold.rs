//! The checksum of a run.

/// The checksum with one more answer. Odd, so that no answer is lost on the way; two instructions in a loop.
pub fn fold(sum: u64, answer: u64) -> u64 {
    (sum ^ answer).wrapping_mul(0x9E37_79B9_7F4A_7C15)
}
