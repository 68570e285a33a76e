//! The exported functions of Rattle's crate `rimjhodek`, and what crosses. All of this crate's
//! `unsafe` is here.
//!
//! State is words that the caller owns and lends: 38 for a register file, 132 for a TLB, a cache's
//! lines and its tags. Enums cross as numbers. An answer is a number, or a struct whose first field
//! is the refusal's number, or 0. Each function is safe to call with any values; what it answers is
//! its contract in `crates/rimjhodek/src`.

mod caches;
mod structs;

pub use caches::*;
pub use structs::*;

/// How many words a register file has.
pub const COP0_WORDS: usize = 38;

/// How many words a TLB has.
pub const TLB_WORDS: usize = 132;

// SAFETY: the signatures are those of `crates/rimjhodek/src`, by C's rules on both sides: a
// reference is a pointer to what it refers to. Each function is proved there to read and write
// nothing but what it is lent, for any values of its arguments.
#[allow(missing_docs)]
unsafe extern "C" {
    // The register file.
    pub safe fn rimjhodek_cop0_new(cop0: &mut [u64; 38]);
    pub safe fn rimjhodek_mfc0(cop0: &[u64; 38], n: u32) -> u64;
    pub safe fn rimjhodek_dmfc0(cop0: &[u64; 38], n: u32) -> u64;
    pub safe fn rimjhodek_mtc0(cop0: &mut [u64; 38], n: u32, value: u64);
    pub safe fn rimjhodek_dmtc0(cop0: &mut [u64; 38], n: u32, value: u64);
    pub safe fn rimjhodek_write(cop0: &mut [u64; 38], n: u32, value: u64);
    pub safe fn rimjhodek_set_hardware(cop0: &mut [u64; 38], n: u32, value: u64);
    pub safe fn rimjhodek_is_unused(n: u32) -> bool;
    pub safe fn rimjhodek_is_wide(n: u32) -> bool;
    pub safe fn rimjhodek_from_rs(rs: u32) -> Number;
    pub safe fn rimjhodek_numbers(out: &mut [u8; 25]);

    // Count, Compare, the timer, and the advance.
    pub safe fn rimjhodek_count(cop0: &[u64; 38]) -> u32;
    pub safe fn rimjhodek_timer_matches(cop0: &[u64; 38]) -> bool;
    pub safe fn rimjhodek_timer_edge(cop0: &mut [u64; 38]) -> bool;
    pub safe fn rimjhodek_count_ticks_until_timer_match(cop0: &[u64; 38]) -> u64;
    pub safe fn rimjhodek_advance(cop0: &mut [u64; 38], counts: u64, steps: u64) -> Flag;

    // Interrupts and Random.
    pub safe fn rimjhodek_set_ip(cop0: &mut [u64; 38], bit: u32, on: bool);
    pub safe fn rimjhodek_interrupt_pending(cop0: &[u64; 38]) -> bool;
    pub safe fn rimjhodek_tick_random(cop0: &mut [u64; 38]);
    pub safe fn rimjhodek_tick_random_by(cop0: &mut [u64; 38], n: u64);

    // The TLB.
    pub safe fn rimjhodek_tlb_new(tlb: &mut [u64; 132]);
    pub safe fn rimjhodek_lookup(tlb: &mut [u64; 132], vaddr: u64, asid: u8, store: bool)
    -> Looked;
    pub safe fn rimjhodek_write_entry(tlb: &mut [u64; 132], index: usize, cop0: &[u64; 38]);
    pub safe fn rimjhodek_read_entry(tlb: &[u64; 132], index: usize, cop0: &mut [u64; 38]);
    pub safe fn rimjhodek_probe(tlb: &[u64; 132], cop0: &mut [u64; 38]);
    pub safe fn rimjhodek_jtlb_has_match(tlb: &[u64; 132], vaddr: u64, asid: u8) -> bool;
    pub safe fn rimjhodek_itlb_probe(tlb: &mut [u64; 132], vaddr: u64, asid: u8) -> bool;
    pub safe fn rimjhodek_itlb_fill(tlb: &mut [u64; 132], vaddr: u64, asid: u8);
    pub safe fn rimjhodek_page_size(mask: u32) -> u64;
    pub safe fn rimjhodek_pair_size(mask: u32) -> u64;

    // Modes, segments and translation.
    pub safe fn rimjhodek_from_status(status: u64) -> Granted;
    pub safe fn rimjhodek_segment(vaddr: u64, access: By) -> Reached;
    pub safe fn rimjhodek_translate_via(
        tlb: &mut [u64; 132],
        vaddr: u64,
        asid: u8,
        store: bool,
        access: By,
    ) -> Looked;

    // Exceptions.
    pub safe fn rimjhodek_dispatch(
        cop0: &mut [u64; 38],
        exc: Exc,
        pc: u64,
        in_delay_slot: bool,
        bad_vaddr: u64,
    ) -> Taken;
    pub safe fn rimjhodek_nmi(cop0: &mut [u64; 38], pc: u64) -> Taken;
    pub safe fn rimjhodek_eret(cop0: &mut [u64; 38]) -> u64;
    pub safe fn rimjhodek_vector(status: u64, kind: u8) -> Number;
    pub safe fn rimjhodek_exc_code_of(exc: Exc) -> Number;
    pub safe fn rimjhodek_vector_kind_of(exc: Exc) -> Number;
    pub safe fn rimjhodek_writes_bad_vaddr(exc: Exc) -> Flag;

    // The caches, whose other functions are in `ffi/caches.rs`.
    pub safe fn rimjhodek_dcache_hit(tags: &[u32; 512], addr: u32) -> bool;
    pub safe fn rimjhodek_icache_hit(tags: &[u32; 512], addr: u32) -> bool;

    // A session.
    pub safe fn rimjhodek_session_new(cop0: &mut [u64; 38], tlb: &mut [u64; 132]);
}
