//! Random sessions on the caches: on few lines and with few tags, so that hits, misses, evictions
//! and dirty lines are common.

use original::cache::{DCACHE_LINE, DCACHE_LINES, ICACHE_LINE, ICACHE_LINES};

use crate::aim;
use crate::draft::Draft;
use crate::mixed::{self, Move};
use crate::rng::Rng;

/// Tags of addresses that share their lines, in both caches: the tag's lowest bits choose among the
/// lines as well.
const SHARING: [u64; 4] = [0, 4, 0x8_0000, 0xF_FFFC];

/// Tags beside them.
const OTHERS: [u64; 6] = [1, 2, 3, 0x12, 0x7_FFFF, 0xF_FFFF];

/// Data lines of a page, at its bounds; two make up an instruction line.
const LINES: [u64; 5] = [0, 0x10, 0x20, 0xFE0, 0xFF0];

/// How often each move is made, against the others.
const MOVES: [(u64, Move); 16] = [
    (30, access),
    (14, d_install),
    (20, d_read),
    (26, d_write),
    (16, d_ask),
    (16, d_tag),
    (22, d_flush),
    (14, d_create),
    (20, d_look),
    (14, fetch),
    (10, i_install),
    (16, i_ask),
    (14, i_tag),
    (14, i_flush),
    (16, i_look),
    (6, other),
];

pub fn session(rng: Rng, operations: usize) -> Vec<u8> {
    mixed::session_of(rng, operations, &MOVES)
}

/// A physical address: most often in one of few lines, with one of few tags, or where a line that
/// is held came from.
fn an_address(draft: &mut Draft) -> u64 {
    match draft.rng.below(16) {
        0..=5 => in_line(&mut draft.rng),
        6..=11 => held(draft),
        12 => held(draft) ^ 1 << draft.rng.below(32),
        13 => {
            let page = a_tag(&mut draft.rng) << 12;
            aim::near(&mut draft.rng, page) % (1 << 32)
        }
        14 => draft.rng.below(1 << 32),
        _ => aim::value(&mut draft.rng) % (1 << 32),
    }
}

fn in_line(rng: &mut Rng) -> u64 {
    a_tag(rng) << 12 | rng.pick(&LINES) | rng.below(DCACHE_LINE.into())
}

fn a_tag(rng: &mut Rng) -> u64 {
    if rng.one_in(3) {
        rng.pick(&OTHERS)
    } else {
        rng.pick(&SHARING)
    }
}

/// An address under the tag that one of the lines holds, of a valid line if one comes up soon.
fn held(draft: &mut Draft) -> u64 {
    let mut found = held_by_any(draft);
    for _ in 0..8 {
        if found.0 {
            break;
        }
        found = held_by_any(draft);
    }
    found.1
}

/// Whether a line of either cache is valid, and an address under its tag.
fn held_by_any(draft: &mut Draft) -> (bool, u64) {
    let addr = in_line(&mut draft.rng) as u32;
    let machine = &draft.machine;
    let tag_lo = draft.rng.pick(&[machine.dcache.load_tag(addr), machine.icache.load_tag(addr)]);
    (tag_lo & 0xC0 != 0, u64::from(tag_lo >> 8 << 12 | addr & 0xFFF))
}

/// A length that fits an address more often than not.
fn a_length(rng: &mut Rng, addr: u64) -> u64 {
    let room = u64::from(DCACHE_LINE) - addr % u64::from(DCACHE_LINE);
    match rng.below(16) {
        0..=7 => 1 + rng.below(room.min(8)),
        8..=11 => room.min(8),
        12 => (room + 1).min(8),
        13 => 1 + rng.below(8),
        14 => rng.pick(&[0, 9, 16]),
        _ => aim::value(rng),
    }
}

/// A TagLo: a tag of the few or any, every state, and now and then bits that have no meaning.
fn a_tag_lo(rng: &mut Rng) -> u64 {
    let tag = if rng.one_in(4) { rng.below(1 << 20) } else { a_tag(rng) };
    let state = rng.pick(&[3, 3, 3, 2, 2, 2, 1, 0]);
    let litter = if rng.one_in(4) { rng.below(1 << 32) & 0xF000_003F } else { 0 };
    tag << 8 | state << 6 | litter
}

fn values<const N: usize>(rng: &mut Rng) -> [u64; N] {
    std::array::from_fn(|_| aim::value(rng))
}

/// The line of an address as it is stored, now and then; its neighbour more rarely.
fn look_after(draft: &mut Draft, name: &str, index: u64) {
    let index = match draft.rng.below(12) {
        0..=3 => index,
        4 => index.wrapping_add(1),
        5 => index.wrapping_sub(1),
        _ => return,
    };
    draft.put(name, &[index]);
}

/// After an operation of the data cache.
fn d_after(draft: &mut Draft, addr: u64) {
    look_after(draft, "d_line", d_index(addr));
}

/// After an operation of the instruction cache.
fn i_after(draft: &mut Draft, addr: u64) {
    look_after(draft, "i_line", i_index(addr));
}

pub fn d_index(addr: u64) -> u64 {
    addr / u64::from(DCACHE_LINE) % DCACHE_LINES as u64
}

pub fn i_index(addr: u64) -> u64 {
    addr / u64::from(ICACHE_LINE) % ICACHE_LINES as u64
}

/// A load or a store as the processor makes it: a miss is filled first.
fn access(draft: &mut Draft) {
    let addr = an_address(draft);
    draft.put("d_hits", &[addr]);
    draft.put("d_miss_plan", &[addr]);
    if !draft.machine.dcache.hits(addr as u32) {
        let [first, second] = values(&mut draft.rng);
        draft.put("d_install", &[addr, first, second]);
    }
    if draft.rng.flag() {
        write_at(draft, addr);
    } else {
        read_at(draft, addr);
    }
}

fn d_install(draft: &mut Draft) {
    let addr = an_address(draft);
    let [first, second] = values(&mut draft.rng);
    draft.put("d_install", &[addr, first, second]);
    d_after(draft, addr);
}

fn d_read(draft: &mut Draft) {
    let addr = an_address(draft);
    read_at(draft, addr);
}

fn d_write(draft: &mut Draft) {
    let addr = an_address(draft);
    write_at(draft, addr);
}

fn read_at(draft: &mut Draft, addr: u64) {
    let length = a_length(&mut draft.rng, addr);
    draft.put("d_read", &[addr, length]);
}

fn write_at(draft: &mut Draft, addr: u64) {
    let length = a_length(&mut draft.rng, addr);
    let value = aim::value(&mut draft.rng);
    draft.put("d_write", &[addr, length, value]);
    d_after(draft, addr);
}

fn d_ask(draft: &mut Draft) {
    let addr = an_address(draft);
    let name = draft.rng.pick(&["d_hits", "d_miss_plan", "d_miss_plan", "d_load_tag"]);
    draft.put(name, &[addr]);
}

fn d_tag(draft: &mut Draft) {
    let addr = an_address(draft);
    let tag_lo = a_tag_lo(&mut draft.rng);
    draft.put("d_store_tag", &[addr, tag_lo]);
    draft.put("d_load_tag", &[addr]);
    d_after(draft, addr);
}

/// Each of the four forms. The hit forms are made of this and a question first.
fn d_flush(draft: &mut Draft) {
    let addr = an_address(draft);
    if draft.rng.one_in(3) {
        draft.put("d_hits", &[addr]);
        if !draft.machine.dcache.hits(addr as u32) {
            return;
        }
    }
    let (invalidate, clean) = (draft.rng.below(2), draft.rng.below(2));
    draft.put("d_flush_index", &[addr, invalidate, clean]);
    d_after(draft, addr);
}

/// A line that is claimed, and often written to the end as it is meant to be.
fn d_create(draft: &mut Draft) {
    let addr = an_address(draft);
    draft.put("d_create_dirty_exclusive", &[addr]);
    d_after(draft, addr);
    if draft.rng.one_in(3) {
        let first = addr & !0xF;
        let [high, low] = values(&mut draft.rng);
        draft.put("d_write", &[first, 8, high]);
        draft.put("d_write", &[first + 8, 8, low]);
    }
}

fn d_look(draft: &mut Draft) {
    let addr = an_address(draft);
    let index = a_line_number(&mut draft.rng, d_index(addr));
    draft.put("d_line", &[index]);
}

/// A line's number, now and then over 511.
fn a_line_number(rng: &mut Rng, index: u64) -> u64 {
    if rng.one_in(4) {
        index | rng.next() << 9
    } else {
        index
    }
}

/// A fetch as the processor makes it: a miss is filled first.
fn fetch(draft: &mut Draft) {
    let addr = an_address(draft);
    draft.put("i_hits", &[addr]);
    if !draft.machine.icache.hits(addr as u32) {
        put_instructions(draft, addr);
    }
    read_word_at(draft, addr);
}

fn i_install(draft: &mut Draft) {
    let addr = an_address(draft);
    put_instructions(draft, addr);
    i_after(draft, addr);
}

fn put_instructions(draft: &mut Draft, addr: u64) {
    let [a, b, c, d] = values(&mut draft.rng);
    draft.put("i_install", &[addr, a, b, c, d]);
}

/// A word that is aligned most often; else it may go past its line's end.
fn read_word_at(draft: &mut Draft, addr: u64) {
    let addr = draft.rng.pick(&[addr & !3, addr & !3, addr, addr | 0x1C]);
    draft.put("i_read_word", &[addr]);
}

fn i_ask(draft: &mut Draft) {
    let addr = an_address(draft);
    match draft.rng.below(4) {
        0 => draft.put("i_hits", &[addr]),
        1 => draft.put("i_load_tag", &[addr]),
        _ => read_word_at(draft, addr),
    }
}

fn i_tag(draft: &mut Draft) {
    let addr = an_address(draft);
    let tag_lo = a_tag_lo(&mut draft.rng);
    draft.put("i_store_tag", &[addr, tag_lo]);
    draft.put("i_load_tag", &[addr]);
    i_after(draft, addr);
}

fn i_flush(draft: &mut Draft) {
    let addr = an_address(draft);
    let name =
        draft.rng.pick(&["i_flush_hit", "i_flush_hit", "i_hit_invalidate", "i_invalidate_index"]);
    draft.put(name, &[addr]);
    i_after(draft, addr);
}

fn i_look(draft: &mut Draft) {
    let addr = an_address(draft);
    let index = a_line_number(&mut draft.rng, i_index(addr));
    draft.put("i_line", &[index]);
}

/// The registers are apart from the caches; a fresh session has fresh caches.
fn other(draft: &mut Draft) {
    if !draft.rng.one_in(6) {
        return mixed::any_move(draft);
    }
    let addr = an_address(draft);
    draft.put("new", &[]);
    draft.put("d_line", &[d_index(addr)]);
    draft.put("i_line", &[i_index(addr)]);
}
