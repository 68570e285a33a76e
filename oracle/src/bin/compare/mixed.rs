//! Random sessions on the register file: moves picked by weight, each aimed at the state so far.

use original::cop0::reg;

use crate::aim;
use crate::draft::{Draft, Dress};
use crate::rng::Rng;

const READS: [&str; 3] = ["mfc0", "dmfc0", "read"];
const WRITES: [&str; 3] = ["mtc0", "dmtc0", "write"];
const ALL_WRITES: [&str; 4] = ["mtc0", "dmtc0", "write", "set_hardware"];
const POLLS: [&str; 5] =
    ["timer_edge", "timer_matches", "count", "count_now", "count_ticks_until_timer_match"];

pub type Move = fn(&mut Draft);

/// How often each move is made, against the others.
const MOVES: [(u64, Move); 12] = [
    (36, transfer),
    (30, look),
    (16, place),
    (36, advance),
    (24, poll),
    (10, jump),
    (20, walk),
    (10, arrange),
    (20, interrupts),
    (10, ask),
    (6, pieces),
    (1, renew),
];

pub fn session(rng: Rng, operations: usize) -> Vec<u8> {
    session_of(rng, operations, &MOVES)
}

/// A session of some moves, of at least so many operations.
pub fn session_of(mut rng: Rng, operations: usize, moves: &[(u64, Move)]) -> Vec<u8> {
    let dress = if rng.one_in(4) { Dress::Fancy } else { Dress::Plain };
    let mut draft = Draft::new(rng, dress);
    while draft.operations < operations {
        a_move(&mut draft.rng, moves)(&mut draft);
    }
    draft.finish()
}

/// Sessions that advance at once, and again from the same start in pieces.
pub fn cut_advances(rng: Rng, operations: usize) -> Vec<u8> {
    let mut draft = Draft::new(rng, Dress::Plain);
    while draft.operations < operations {
        whole_and_cut(&mut draft);
    }
    draft.finish()
}

pub fn any_move(draft: &mut Draft) {
    a_move(&mut draft.rng, &MOVES)(draft);
}

/// A move of a table, by its weight.
pub fn a_move(rng: &mut Rng, moves: &[(u64, Move)]) -> Move {
    let mut at = rng.below(moves.iter().map(|(weight, _)| weight).sum());
    for (weight, chosen) in moves {
        if at < *weight {
            return *chosen;
        }
        at -= weight;
    }
    unreachable!("the weights' sum bounds the number")
}

fn transfer(draft: &mut Draft) {
    let name = draft.rng.pick(&ALL_WRITES);
    let register = aim::register(&mut draft.rng);
    let value = aim::value(&mut draft.rng);
    draft.put(name, &[register, value]);
    if draft.rng.flag() {
        let name = draft.rng.pick(&READS);
        draft.put(name, &[register]);
    }
}

fn look(draft: &mut Draft) {
    let name = draft.rng.pick(&READS);
    let register = aim::register(&mut draft.rng);
    draft.put(name, &[register]);
}

/// Count near Compare, or Compare near Count.
pub fn place(draft: &mut Draft) {
    let (moved, fixed) = draft.rng.pick(&[(reg::COUNT, reg::COMPARE), (reg::COMPARE, reg::COUNT)]);
    let there = draft.machine.cop0.read(fixed);
    let rng = &mut draft.rng;
    let near = if rng.one_in(3) { there } else { aim::near(rng, there) };
    let value = aim::littered(rng, near);
    let name = if rng.one_in(6) { "set_hardware" } else { rng.pick(&WRITES) };
    let register = if rng.one_in(6) { aim::alias(rng, moved) } else { moved.into() };
    draft.put(name, &[register, value]);
}

pub fn advance(draft: &mut Draft) {
    let counts = aim::counts(draft);
    let steps = aim::steps(draft);
    draft.put("advance", &[counts, steps]);
}

fn poll(draft: &mut Draft) {
    let name = draft.rng.pick(&POLLS);
    draft.put(name, &[]);
}

/// The clock set unasked, which may pass over Compare.
fn jump(draft: &mut Draft) {
    let clock = aim::clock(draft);
    draft.put("set_now", &[clock]);
}

fn walk(draft: &mut Draft) {
    if draft.rng.one_in(4) {
        draft.put("tick_random", &[]);
    } else {
        let steps = aim::steps(draft);
        draft.put("tick_random_by", &[steps]);
    }
    if draft.rng.flag() {
        draft.put("read", &[reg::RANDOM.into()]);
    }
}

/// Random and Wired as no session leaves them.
fn arrange(draft: &mut Draft) {
    let rng = &mut draft.rng;
    let register = rng.pick(&[reg::RANDOM, reg::WIRED]).into();
    let value = rng.pick(&[0, 31, 32, 63, 64]) ^ rng.below(64);
    let value = if rng.one_in(4) { aim::value(rng) } else { value };
    let name = if rng.flag() { "set_hardware" } else { rng.pick(&WRITES) };
    draft.put(name, &[register, value]);
}

/// Pending bits against their masks, under each of IE, EXL and ERL.
fn interrupts(draft: &mut Draft) {
    let rng = &mut draft.rng;
    let enables = if rng.flag() { 1 } else { rng.below(8) };
    let status = enables | few_bits(rng) << 8 | (aim::value(rng) & !0xFF07);
    let name = rng.pick(&ALL_WRITES);
    draft.put(name, &[reg::STATUS.into(), status]);
    for _ in 0..draft.rng.below(4) {
        pending_bit(draft);
    }
    draft.put("interrupt_pending", &[]);
}

fn pending_bit(draft: &mut Draft) {
    let rng = &mut draft.rng;
    if rng.one_in(4) {
        let name = rng.pick(&ALL_WRITES);
        let cause = few_bits(rng) << 8 | (aim::value(rng) & !0xFF00);
        draft.put(name, &[reg::CAUSE.into(), cause]);
    } else {
        let bit = if rng.one_in(4) { rng.below(256) } else { rng.below(8) };
        let on = rng.below(2);
        draft.put("set_ip", &[bit, on]);
    }
}

/// Eight bits: one, all but one, none, all, or any.
fn few_bits(rng: &mut Rng) -> u64 {
    let bit = 1 << rng.below(8);
    let any = rng.below(256);
    rng.pick(&[bit, bit, 0xFF ^ bit, 0, 0xFF, any])
}

fn ask(draft: &mut Draft) {
    let name = draft.rng.pick(&["from_rs", "is_wide", "is_unused"]);
    let number = match draft.rng.below(3) {
        0 => draft.rng.below(8),
        1 => draft.rng.below(64),
        _ => draft.rng.below(256),
    };
    draft.put(name, &[number]);
}

/// Advances of which one ends on Compare; the next must not report the edge again.
pub fn pieces(draft: &mut Draft) {
    let to_compare = aim::to_compare(draft);
    let rng = &mut draft.rng;
    let first = to_compare - rng.below(to_compare.min(3) + 1);
    let last = rng.pick(&[0, 1, u64::from(u32::MAX)]);
    for counts in [first, to_compare - first, 0, last, 1] {
        let steps = draft.rng.below(3);
        draft.put("advance", &[counts, steps]);
    }
}

fn renew(draft: &mut Draft) {
    draft.put("new", &[]);
}

fn whole_and_cut(draft: &mut Draft) {
    let from = draft.length();
    for _ in 0..4 + draft.rng.below(6) {
        let prepare = draft.rng.pick(&[transfer, place, place, jump, arrange, advance]);
        prepare(draft);
    }
    let start = draft.since(from);
    let counts = aim::counts(draft) % (1 << 32);
    let steps = aim::steps(draft);
    let to_compare = aim::to_compare(draft);
    draft.put("advance", &[counts, steps]);
    draft.append(b"state\nnew\n");
    draft.append(&start);
    for (counts, steps) in cut(&mut draft.rng, counts, steps, to_compare) {
        draft.put("advance", &[counts, steps]);
    }
    draft.append(b"state\nnew\n");
}

/// Pieces that make up the whole, most often with a cut on Compare.
fn cut(rng: &mut Rng, counts: u64, steps: u64, to_compare: u64) -> Vec<(u64, u64)> {
    let (mut counts, mut steps) = (counts, steps);
    let mut pieces = Vec::new();
    if to_compare <= counts && !rng.one_in(4) {
        pieces.push((to_compare, 0));
        counts -= to_compare;
    }
    for _ in 0..rng.below(5) {
        let piece = (part(rng, counts), part(rng, steps));
        pieces.push(piece);
        counts -= piece.0;
        steps -= piece.1;
    }
    pieces.push((counts, steps));
    pieces
}

fn part(rng: &mut Rng, whole: u64) -> u64 {
    match rng.below(4) {
        0 => 0,
        1 => whole.min(1),
        2 => whole,
        _ => rng.next() % whole.max(1),
    }
}
