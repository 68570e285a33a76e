//! Numbers where an answer is likely to turn: bounds of words, masks, the timer's and Random's
//! distances.

use original::cop0::{reg, ARCH_MASK, WRITE_MASK};

use crate::draft::Draft;
use crate::rng::Rng;

const WORD: u64 = 1 << 32;

/// The registers with effects or readings of their own.
const TELLING: [u8; 14] = [
    reg::RANDOM,
    reg::WIRED,
    reg::COUNT,
    reg::COMPARE,
    reg::STATUS,
    reg::CAUSE,
    reg::CONFIG,
    7,
    21,
    22,
    23,
    24,
    25,
    31,
];

/// A register number, of 8 bits as an operand is.
pub fn register(rng: &mut Rng) -> u64 {
    match rng.below(8) {
        0..=3 => rng.pick(&TELLING).into(),
        4 | 5 => rng.below(32),
        6 => {
            let telling = rng.pick(&TELLING);
            alias(rng, telling)
        }
        _ => rng.below(256),
    }
}

/// A number that is taken for the given one modulo 32.
pub fn alias(rng: &mut Rng, register: u8) -> u64 {
    u64::from(register) + 32 * rng.below(8)
}

/// A value to write.
pub fn value(rng: &mut Rng) -> u64 {
    match rng.below(10) {
        0 | 1 => corner(rng),
        2 => 1 << rng.below(64),
        3 => !(1 << rng.below(64)),
        4 => u64::MAX >> rng.below(64),
        5 => mask(rng),
        6 => sign_pattern(rng),
        7 => rng.below(80),
        _ => rng.next(),
    }
}

/// Each bit alone, and each missing alone.
pub fn bits() -> impl Iterator<Item = u64> {
    (0..64).flat_map(|bit| [1 << bit, !(1 << bit)])
}

/// The ends of 8, 31, 32, 33, 63 and 64 bits.
fn corner(rng: &mut Rng) -> u64 {
    let end = rng.pick(&[0, 1 << 8, 1 << 31, WORD, WORD << 1, 1 << 63, WORD.wrapping_neg()]);
    near(rng, end)
}

/// A number at most 2 away.
pub fn near(rng: &mut Rng, number: u64) -> u64 {
    number.wrapping_add(rng.below(5)).wrapping_sub(2)
}

/// A register's mask or its complement.
fn mask(rng: &mut Rng) -> u64 {
    let table = rng.pick(&[WRITE_MASK, ARCH_MASK]);
    let mask = rng.pick(&table);
    if rng.flag() {
        mask
    } else {
        !mask
    }
}

/// A word with an upper half that is or isn't its sign.
fn sign_pattern(rng: &mut Rng) -> u64 {
    let word = rng.below(WORD);
    word | rng.pick(&[0, !(WORD - 1), 1 << 63, WORD])
}

/// A word, sometimes under an upper half that has no meaning.
pub fn littered(rng: &mut Rng, word: u64) -> u64 {
    let upper = if rng.one_in(4) { rng.next() << 32 } else { 0 };
    (word % WORD) | upper
}

/// Counts to advance by: to Compare and thereabouts, none, the most, and too many.
pub fn counts(draft: &mut Draft) -> u64 {
    let to_compare = to_compare(draft);
    let rng = &mut draft.rng;
    match rng.below(16) {
        0..=2 => to_compare,
        3..=5 => near(rng, to_compare) % WORD,
        6 => 0,
        7 => 1,
        8 => WORD - 1,
        9 => near(rng, WORD),
        10 => rng.pick(&[u64::MAX, WORD + to_compare, 1 << 63]),
        11 | 12 => rng.below(64),
        13 | 14 => rng.below(WORD),
        _ => value(rng),
    }
}

/// The distance from Count to Compare.
pub fn to_compare(draft: &Draft) -> u64 {
    let cop0 = &draft.machine.cop0;
    cop0.read(reg::COMPARE).wrapping_sub(cop0.read(reg::COUNT)) % WORD
}

/// Steps of Random: down to Wired, round the cycle after it, and thereabouts.
pub fn steps(draft: &mut Draft) -> u64 {
    let cop0 = &draft.machine.cop0;
    let (walk, cycle) = walk_and_cycle(cop0.read(reg::RANDOM), cop0.read(reg::WIRED));
    let rng = &mut draft.rng;
    match rng.below(12) {
        0..=2 => walk,
        3 | 4 => near(rng, walk),
        5..=7 => {
            let rounds = rng.below(4);
            near(rng, walk + rounds * cycle)
        }
        8 => rng.below(3),
        9 => rng.below(200),
        10 => WORD + rng.below(70),
        _ => value(rng),
    }
}

/// How many steps lead to Wired, and how many lead from 31 back to 31.
pub fn walk_and_cycle(random: u64, wired: u64) -> (u64, u64) {
    (random.wrapping_sub(wired) % 64, 31_u64.wrapping_sub(wired) % 64 + 1)
}

/// A clock to set: a little on or back, past Compare, near the end of a word or of the clock.
pub fn clock(draft: &mut Draft) -> u64 {
    let now = draft.machine.cop0.count_now();
    let to_compare = to_compare(draft);
    let rng = &mut draft.rng;
    match rng.below(8) {
        0 => near(rng, now),
        1 => near(rng, now.wrapping_add(to_compare)),
        2 => now.wrapping_add(rng.below(WORD)),
        3 => now.wrapping_add(WORD),
        4 | 5 => near(rng, 0),
        6 => u64::MAX - rng.below(WORD),
        _ => value(rng),
    }
}
