//! The operations: a row for each, with the inputs that it is given in turn and the calls that it makes.

use std::hint::black_box;
use std::time::{Duration, Instant};

use crate::fold::fold;
use crate::rng::Rng;
use crate::room::{ENTRIES, digest, furnished, pair, reg};
use crate::side::{Original, Ours, Side};

/// How many inputs there are; then they come again. A multiple of 32, so that each register comes equally often.
pub const INPUTS: usize = 64;

/// What one run gives.
pub struct Run {
    /// Of every answer and of what was left.
    pub checksum: u64,
    /// The loop's time, without what is before and after it.
    pub time: Duration,
}

/// One operation on both sides, each as a run of some number of calls.
pub struct Operation {
    pub name: &'static str,
    pub what: &'static str,
    /// The exports that ours calls.
    pub exports: &'static [&'static str],
    pub original: fn(u64) -> Run,
    pub ours: fn(u64) -> Run,
}

macro_rules! row {
    ($name:expr, $what:literal, $input:expr, $step:ident, $exports:expr) => {
        Operation {
            name: $name,
            what: $what,
            exports: &$exports,
            original: |calls| run(calls, $input, $step::<Original>),
            ours: |calls| run(calls, $input, $step::<Ours>),
        }
    };
}

/// Every operation, in the table's order.
pub static OPERATIONS: &[Operation] = &[
    row!("mfc0", "read each of the 32 registers", number, mfc0, ["rimjhodek_mfc0"]),
    row!("dmfc0-status", "read Status", |_, _| reg::STATUS.into(), dmfc0, ["rimjhodek_dmfc0"]),
    row!("mtc0", "write each of the 32 registers", numbered_value, mtc0, ["rimjhodek_mtc0"]),
    row!(
        "interrupt-pending",
        "is an interrupt taken",
        random,
        interrupt_pending,
        ["rimjhodek_interrupt_pending"]
    ),
    row!("advance", "advance by up to 15 counts and steps", random, advance, ["rimjhodek_advance"]),
    row!(
        "access",
        "the access that Status asks for",
        random,
        access,
        ["rimjhodek_dmfc0", "rimjhodek_from_status"]
    ),
    row!(
        "lookup-first",
        "lookup, hit in entry 0",
        |_, r| within(0, r),
        lookup,
        ["rimjhodek_lookup"]
    ),
    row!(
        "lookup-last",
        "lookup, hit in entry 31",
        |_, r| within(31, r),
        lookup,
        ["rimjhodek_lookup"]
    ),
    row!(
        "lookup-miss",
        "lookup, no entry",
        |_, r| within(ENTRIES, r),
        lookup,
        ["rimjhodek_lookup"]
    ),
    row!("translate-direct", "translate in KSEG0", kseg0, translate, ["rimjhodek_translate_via"]),
    row!(
        "translate-mapped",
        "translate, hit in each entry",
        |i, r| within(i % 32, r),
        translate,
        ["rimjhodek_translate_via"]
    ),
    row!(
        "refill-eret",
        "dispatch a TLB refill, and eret",
        random,
        refill_eret,
        ["rimjhodek_dispatch", "rimjhodek_eret"]
    ),
    row!("write-entry", "write each TLB entry", |i, _| i, write_entry, ["rimjhodek_write_entry"]),
    row!(
        "itlb-probe",
        "micro-TLB, hit in either slot",
        either_slot,
        itlb_probe,
        ["rimjhodek_itlb_probe"]
    ),
    row!(
        "d-hits",
        "data cache, is the line there",
        |_, r| near(0x2000, r),
        d_hits,
        ["rimjhodek_dcache_hit"]
    ),
    row!(
        "d-read-8",
        "data cache, read 8 bytes",
        |_, r| aligned(8, r),
        d_read,
        ["rimjhodek_dcache_read"]
    ),
    row!(
        "d-read-4",
        "data cache, read 4 bytes",
        |_, r| aligned(4, r),
        d_read,
        ["rimjhodek_dcache_read"]
    ),
    row!(
        "d-write-8",
        "data cache, write 8 bytes",
        |_, r| aligned(8, r),
        d_write,
        ["rimjhodek_dcache_write"]
    ),
    row!(
        "d-write-4",
        "data cache, write 4 bytes",
        |_, r| aligned(4, r),
        d_write,
        ["rimjhodek_dcache_write"]
    ),
    row!(
        "i-hits",
        "instruction cache, is the line there",
        |_, r| near(0x4000, r),
        i_hits,
        ["rimjhodek_icache_hit"]
    ),
    row!(
        "i-read-word",
        "instruction cache, read a word",
        |_, r| aligned(4, r),
        i_read_word,
        ["rimjhodek_icache_read_word"]
    ),
    row!(NOTHING, "the loop alone", random, nothing, []),
];

/// The operation that does nothing: what the loop itself costs.
pub const NOTHING: &str = "nothing";

/// The operation of a name.
pub fn find(name: &str) -> Option<&'static Operation> {
    OPERATIONS.iter().find(|operation| operation.name == name)
}

/// Makes a number of calls, each with the next input.
///
/// An input passes through `black_box`, so that no call's work moves out of the loop.
#[inline(never)]
fn run<S: Side>(
    calls: u64,
    input: fn(u64, &mut Rng) -> u64,
    step: impl Fn(&mut S, u64) -> u64,
) -> Run {
    let mut machine = furnished::<S>();
    let machine = black_box(&mut *machine);
    let inputs = black_box(inputs(input));
    let mut sum = 0;
    let start = Instant::now();
    for call in 0..calls {
        let input = black_box(inputs[call as usize % INPUTS]);
        sum = fold(sum, step(machine, input));
    }
    let sum = black_box(sum);
    let time = start.elapsed();
    Run { checksum: fold(sum, digest(machine)), time }
}

fn inputs(input: fn(u64, &mut Rng) -> u64) -> [u64; INPUTS] {
    let mut rng = Rng::new();
    std::array::from_fn(|i| input(i as u64, &mut rng))
}

// The inputs.

fn random(_: u64, rng: &mut Rng) -> u64 {
    rng.next()
}

/// Register numbers, one after another.
fn number(i: u64, _: &mut Rng) -> u64 {
    i % 32
}

/// A register's number in the low 8 bits of a value.
fn numbered_value(i: u64, rng: &mut Rng) -> u64 {
    rng.next() << 8 | number(i, rng)
}

/// An address in the pair of an entry; past the last entry there is none.
fn within(entry: u64, rng: &mut Rng) -> u64 {
    pair(entry) + rng.next() % 0x2000
}

fn kseg0(_: u64, rng: &mut Rng) -> u64 {
    0xFFFF_FFFF_8000_0000 | rng.next() & 0x1FFF_FFFF
}

/// Addresses in the two entries that the micro-TLB holds, at random.
fn either_slot(_: u64, rng: &mut Rng) -> u64 {
    let entry = if rng.next() & 1 == 0 { 3 } else { 30 };
    within(entry, rng)
}

/// An address below twice a cache's size: its lines hold those of the lower half, so that one in two hits.
fn near(size: u64, rng: &mut Rng) -> u64 {
    rng.next() % (2 * size)
}

/// An access of `len` bytes to some line: its address, aligned, and above it the length.
fn aligned(len: u64, rng: &mut Rng) -> u64 {
    (len << 32) | ((rng.next() & 0xFFFF_FFFF) / len * len)
}

// The calls. An emulator gets each operand from the instruction that it runs, so none is a constant here. What has no
// answer gives its input, so that the loop has the same to fold.

fn mfc0<S: Side>(machine: &mut S, input: u64) -> u64 {
    machine.mfc0(input as u8)
}

fn dmfc0<S: Side>(machine: &mut S, input: u64) -> u64 {
    machine.dmfc0(input as u8)
}

fn mtc0<S: Side>(machine: &mut S, input: u64) -> u64 {
    machine.mtc0(input as u8, input >> 8);
    input
}

fn interrupt_pending<S: Side>(machine: &mut S, _: u64) -> u64 {
    machine.interrupt_pending().into()
}

fn advance<S: Side>(machine: &mut S, input: u64) -> u64 {
    machine.advance(input & 15, input >> 4 & 15).into()
}

fn access<S: Side>(machine: &mut S, _: u64) -> u64 {
    machine.access()
}

fn lookup<S: Side>(machine: &mut S, input: u64) -> u64 {
    machine.lookup(input, input & 1 == 1)
}

fn translate<S: Side>(machine: &mut S, input: u64) -> u64 {
    machine.translate(input, input & 1 == 1)
}

fn refill_eret<S: Side>(machine: &mut S, input: u64) -> u64 {
    let vector = machine.refill(input, input.rotate_left(32));
    vector ^ machine.eret()
}

fn write_entry<S: Side>(machine: &mut S, input: u64) -> u64 {
    machine.write_entry(input as usize);
    input
}

fn itlb_probe<S: Side>(machine: &mut S, input: u64) -> u64 {
    machine.itlb_probe(input).into()
}

fn d_hits<S: Side>(machine: &mut S, input: u64) -> u64 {
    machine.d_hits(input as u32).into()
}

fn d_read<S: Side>(machine: &mut S, input: u64) -> u64 {
    machine.d_read(input as u32, (input >> 32) as usize)
}

fn d_write<S: Side>(machine: &mut S, input: u64) -> u64 {
    machine.d_write(input as u32, (input >> 32) as usize, input.wrapping_mul(input));
    input
}

fn i_hits<S: Side>(machine: &mut S, input: u64) -> u64 {
    machine.i_hits(input as u32).into()
}

fn i_read_word<S: Side>(machine: &mut S, input: u64) -> u64 {
    machine.i_read_word(input as u32).into()
}

fn nothing<S: Side>(_: &mut S, input: u64) -> u64 {
    input
}
