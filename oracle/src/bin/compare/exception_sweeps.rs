//! Traces that go through all of something about exceptions.

use original::cop0::reg;

use crate::aim::bits;
use crate::draft::Draft;
use crate::exceptions::{
    self, ADDRESS_ERROR, BOUNDS, COPROCESSOR_UNUSABLE, PLACES, SYSCALL, TLB_INVALID, TLB_MODIFIED,
    TLB_REFILL,
};

/// The bit of Status that an exception sets.
const EXL: u64 = 1 << 1;

/// Each EXL, ERL and BEV, with all else of Status clear.
fn statuses() -> impl Iterator<Item = u64> {
    (0..8).map(|levels| (levels & 0b11) << 1 | levels >> 2 << 22)
}

fn set(draft: &mut Draft, register: u8, value: u64) {
    draft.put("set_hardware", &[register.into(), value]);
}

fn read(draft: &mut Draft, register: u8) {
    draft.put("read", &[register.into()]);
}

fn dispatch(draft: &mut Draft, [number, a, b]: [u64; 3], pc: u64, slot: u64, bad: u64) {
    draft.put("dispatch", &[number, a, b, pc, slot, bad]);
}

/// One exception under each EXL, ERL and BEV, in a delay slot and not, at each place and from each
/// bound of an address; and all that it leaves. What it keeps of the registers is all set, or all
/// clear.
pub fn every_taking(draft: &mut Draft, number: u64) {
    let exception = exceptions::all()[number as usize];
    for status in statuses() {
        for (slot, before) in [(0, u64::MAX), (1, 0)] {
            for register in [reg::CAUSE, reg::CONTEXT, reg::XCONTEXT, reg::ENTRY_HI] {
                set(draft, register, before);
            }
            for pc in PLACES {
                for bad in BOUNDS {
                    set(draft, reg::STATUS, status);
                    dispatch(draft, exception, pc, slot, bad);
                    draft.put("state", &[]);
                }
            }
        }
    }
}

/// Each kind under each bit of Status, and under each EXL, ERL and BEV.
pub fn every_vector(draft: &mut Draft) {
    for status in bits().chain(statuses()) {
        for kind in 0..4 {
            draft.put("vector", &[status, kind]);
        }
    }
}

/// Each bit of Cause before an exception with a unit, with an address, and with neither; as the
/// first and nested, in a delay slot and not.
pub fn every_cause_bit(draft: &mut Draft) {
    for exception in [[COPROCESSOR_UNUSABLE, 2, 0], [TLB_INVALID, 1, 0], [SYSCALL, 0, 0]] {
        for cause in bits() {
            for (status, slot) in [(0, 0), (0, 1), (EXL, 0), (EXL, 1)] {
                set(draft, reg::STATUS, status);
                set(draft, reg::CAUSE, cause);
                dispatch(draft, exception, 0x40, slot, 0);
                read(draft, reg::CAUSE);
            }
        }
    }
}

/// Each bit of a faulting address, over registers that are all set and all clear.
pub fn every_address_bit(draft: &mut Draft) {
    const WRITTEN: [u8; 4] = [reg::BAD_VADDR, reg::CONTEXT, reg::XCONTEXT, reg::ENTRY_HI];
    for number in [ADDRESS_ERROR, TLB_REFILL, TLB_INVALID, TLB_MODIFIED] {
        for before in [0, u64::MAX] {
            for register in WRITTEN {
                set(draft, register, before);
            }
            for bad in bits() {
                dispatch(draft, [number, 0, 0], 0x40, 0, bad);
                for register in WRITTEN {
                    read(draft, register);
                }
            }
        }
    }
}

/// Each exception in the handler of each, and the way back.
pub fn every_nesting(draft: &mut Draft) {
    for first in exceptions::all() {
        for second in exceptions::all() {
            set(draft, reg::STATUS, 0);
            dispatch(draft, first, 0x1000, 1, 0x1234_5678);
            dispatch(draft, second, 0x2000, 0, 0x8765_4321);
            draft.put("state", &[]);
            draft.put("eret", &[]);
            draft.put("eret", &[]);
        }
    }
}

/// NMI under each bit of Status, and at each place under each EXL, ERL and BEV; and the way back.
pub fn every_nmi(draft: &mut Draft) {
    let under_bits = bits().map(|status| (status, 0x40));
    let at_places = PLACES.into_iter().flat_map(|pc| statuses().map(move |status| (status, pc)));
    for (status, pc) in under_bits.chain(at_places) {
        set(draft, reg::STATUS, status);
        draft.put("nmi", &[pc]);
        read(draft, reg::STATUS);
        read(draft, reg::ERROR_EPC);
        draft.put("eret", &[]);
        read(draft, reg::STATUS);
    }
}

/// A return under each bit of Status; and to each place under each EXL, ERL and BEV, one after
/// another.
pub fn every_return(draft: &mut Draft) {
    for status in bits() {
        set(draft, reg::STATUS, status);
        draft.put("eret", &[]);
        read(draft, reg::STATUS);
    }
    for pc in PLACES {
        draft.put("dmtc0", &[reg::EPC.into(), pc]);
        draft.put("dmtc0", &[reg::ERROR_EPC.into(), !pc]);
        for status in statuses() {
            set(draft, reg::STATUS, status);
            for _ in 0..3 {
                draft.put("eret", &[]);
                read(draft, reg::STATUS);
            }
        }
    }
}
