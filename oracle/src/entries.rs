//! Which entry of the table answered: document 02 asks for its number, and the original does not
//! tell it. It is found here by a walk of its own over the original's table.

use original::addr::{segment, Access, Segment};
use original::tlb::{Entry, Tlb, JTLB_ENTRIES, VPN2_MASK};

/// What stands for no entry.
pub const NONE: u64 = JTLB_ENTRIES as u64;

/// Address bits 63..62, the region.
const REGION_MASK: u64 = 3 << 62;

/// The entry by which a lookup has found an address. Only one may match: if it is another number
/// of entries, the original has answered where it must not.
pub fn answering(tlb: &Tlb, vaddr: u64, asid: u8) -> u64 {
    let numbers = 0..JTLB_ENTRIES;
    let matching: Vec<usize> = numbers.filter(|&i| matches(tlb.entry(i), vaddr, asid)).collect();
    match matching[..] {
        [only] => only as u64,
        _ => panic!("a lookup has found {vaddr:x} of {asid:x}, and these match: {matching:?}"),
    }
}

/// The entry by which a translation has found an address, or none where it did not need one.
pub fn answering_via(tlb: &Tlb, vaddr: u64, asid: u8, access: Access) -> u64 {
    match segment(vaddr, access) {
        Segment::Direct { .. } => NONE,
        _ => answering(tlb, vaddr, asid),
    }
}

/// The same region, the same VPN2 outside the mask and, if it is not global, the same ASID.
fn matches(entry: Entry, vaddr: u64, asid: u8) -> bool {
    let tag = u64::from(entry.region) << 62 | entry.vpn2;
    let compared = REGION_MASK | VPN2_MASK & !u64::from(entry.page_mask);
    (tag ^ vaddr) & compared == 0 && (entry.global || entry.asid == asid)
}
