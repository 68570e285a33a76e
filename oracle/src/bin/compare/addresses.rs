//! Virtual addresses where a translation is likely to turn: at the segments' limits, and at the
//! limits of the pages that the table holds.

use original::tlb::{Entry, Tlb, JTLB_ENTRIES, VA_MASK};

use crate::aim;
use crate::draft::Draft;
use crate::rng::Rng;

/// Where a segment of some mode begins or has ended.
const LIMITS: [u64; 12] = [
    0,
    0x8000_0000,
    0x1_0000_0000,
    0x100_0000_0000,
    0x4000_0000_0000_0000,
    0x4000_0100_0000_0000,
    0xC000_00FF_8000_0000,
    0xC000_0100_0000_0000,
    0xFFFF_FFFF_8000_0000,
    0xFFFF_FFFF_A000_0000,
    0xFFFF_FFFF_C000_0000,
    0xFFFF_FFFF_E000_0000,
];

/// The bits over VPN2 and under the region, which no entry is compared with.
const FILL: u64 = 0x3FFF_FF00_0000_0000;

/// The sign of a 32-bit address, as far as VPN2 holds it.
const SIGN: u64 = 0xFF_8000_0000;

/// All limits, those of the eight direct windows from bit 63 on among them; the last window's
/// end, C000_0000_0000_0000, too.
pub fn limits() -> Vec<u64> {
    let windows = (0..=8).map(|window| (1_u64 << 63) + (window << 59));
    let windows = windows.flat_map(|first| [first, first + (1 << 32)]);
    LIMITS.into_iter().chain(windows).collect()
}

/// At a limit or next to it, within a segment, or a bit away from there.
pub fn of_segments(rng: &mut Rng) -> u64 {
    let limit = if rng.flag() { rng.pick(&LIMITS) } else { rng.pick(&limits()) };
    match rng.below(8) {
        0..=3 => aim::near(rng, limit),
        4 => limit.wrapping_add(rng.below(1 << 32)),
        5 => limit.wrapping_sub(rng.below(1 << 32)),
        6 => limit ^ 1 << rng.below(64),
        _ => aim::value(rng),
    }
}

/// An address that an entry matches, or nearly so.
pub fn of_entry(rng: &mut Rng, entry: &Entry) -> u64 {
    match rng.below(16) {
        0..=10 => inside(rng, entry),
        11..=13 => at_limit(rng, entry),
        14 => inside(rng, entry) ^ 1 << rng.below(64),
        _ => of_segments(rng),
    }
}

/// An entry of the table; the ends of the table come more often.
pub fn an_entry(draft: &mut Draft) -> Entry {
    let number = entry_number(&mut draft.rng);
    draft.machine.tlb.entry(number as usize)
}

/// An entry's number, most often under 32.
pub fn entry_number(rng: &mut Rng) -> u64 {
    let entries = JTLB_ENTRIES as u64;
    match rng.below(12) {
        0 => 0,
        1 => entries - 1,
        2 => aim::near(rng, entries),
        3 => rng.below(entries) | rng.next() << 5,
        _ => rng.below(entries),
    }
}

/// An address under an entry: any bits where it compares none.
pub fn inside(rng: &mut Rng, entry: &Entry) -> u64 {
    let free = rng.next() & (u64::from(entry.page_mask) | 0x1FFF);
    filled(rng, entry.region, entry.vpn2 | free)
}

/// The first or the last address of an entry's pair or half, or one beside it.
fn at_limit(rng: &mut Rng, entry: &Entry) -> u64 {
    let page = Tlb::page_size(entry.page_mask);
    let pair = Tlb::pair_size(entry.page_mask);
    let limit = entry.vpn2 + rng.pick(&[0, page, pair]);
    let limit = limit.wrapping_sub(rng.below(2)).wrapping_add(rng.below(2));
    filled(rng, entry.region, limit & VA_MASK)
}

/// Under a region, with the bits between as the segments have them; now and then any, or none.
pub fn filled(rng: &mut Rng, region: u8, low: u64) -> u64 {
    let is_word = region == 3 && low >= SIGN;
    let fill = match rng.below(12) {
        0 => rng.next() & FILL,
        1 => 0,
        _ if is_word => FILL,
        _ => 0,
    };
    u64::from(region) << 62 | fill | low
}

/// An entry's own ASID, most often; else one that few entries have.
pub fn asid(rng: &mut Rng, entry: &Entry) -> u64 {
    let own = u64::from(entry.asid);
    match rng.below(16) {
        0 => own ^ 1 << rng.below(8),
        1 => some_asid(rng),
        _ => own,
    }
}

/// Few, so that entries share them.
pub fn some_asid(rng: &mut Rng) -> u64 {
    let any = rng.below(256);
    rng.pick(&[0, 0, 1, 2, 0xFF, any])
}
