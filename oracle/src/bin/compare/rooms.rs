//! Mixed sessions, as a room's member plays them: registers, the table, exceptions and the clock in
//! one trace, by the operations of a session alone; and stride pairs, one session played twice with
//! its time cut in other strides.

use oracle::machine::Machine;
use oracle::parse::{lines, parse, Call};
use oracle::play::Answer;
use original::cop0::reg;

use crate::draft::{Draft, Dress, Range};
use crate::mixed::{self, Move};
use crate::rng::Rng;
use crate::{aim, exceptions, translation};

const WORD: u64 = 1 << 32;

/// How often each move is made, against the others.
const MOVES: [(u64, Move); 8] = [
    (30, mixed::advance),
    (12, mixed::place),
    (5, mixed::pieces),
    (5, wrap),
    (20, mixed::any_move),
    (24, exceptions::any_move),
    (24, translation::tame_move),
    (1, translation::wild_move),
];

/// A mixed session.
pub fn session(mut rng: Rng, operations: usize) -> Vec<u8> {
    let dress = if rng.one_in(4) { Dress::Fancy } else { Dress::Plain };
    session_in(rng, operations, dress)
}

fn session_in(rng: Rng, operations: usize, dress: Dress) -> Vec<u8> {
    let mut draft = Draft::of(rng, dress, Range::Session);
    translation::fill(&mut draft, translation::write_apart);
    while draft.operations < operations {
        mixed::a_move(&mut draft.rng, &MOVES)(&mut draft);
        if draft.machine.tlb.is_shutdown() && draft.rng.one_in(12) {
            draft.put("is_shutdown", &[]);
            draft.put("new", &[]);
            translation::fill(&mut draft, translation::write_apart);
        }
    }
    draft.finish()
}

/// Count right before its wrap, and an advance over it; Compare lies at the wrap, or thereabouts.
fn wrap(draft: &mut Draft) {
    let before = draft.rng.below(8);
    let compare = aim::near(&mut draft.rng, 0);
    draft.put("mtc0", &[reg::COUNT.into(), WORD - 1 - before]);
    draft.put("mtc0", &[reg::COMPARE.into(), compare]);
    let (counts, steps) = (draft.rng.below(16), draft.rng.below(8));
    draft.put("advance", &[counts, steps]);
}

/// How the second session of a pair goes.
#[derive(Default)]
pub struct Strides {
    /// For each operation of the first session, by how many the second one has it.
    parts: Vec<usize>,
    pub counts: Counts,
}

/// What was cut.
#[derive(Default)]
pub struct Counts {
    pub pairs: u64,
    pub advances: u64,
    pub pieces: u64,
    /// Pieces without a count.
    pub empty: u64,
    /// Cuts at which Count is Compare, and at which it is 0 again.
    pub on_compare: u64,
    pub on_wrap: u64,
}

impl Counts {
    pub fn add(&mut self, other: &Self) {
        self.pairs += other.pairs;
        self.advances += other.advances;
        self.pieces += other.pieces;
        self.empty += other.empty;
        self.on_compare += other.on_compare;
        self.on_wrap += other.on_wrap;
    }
}

/// One session twice, in one trace: as it is, and after a `new` with its advances cut.
pub fn pair(mut rng: Rng, operations: usize) -> (Vec<u8>, Strides) {
    let seed = rng.next();
    let mut text = session_in(Rng::new(seed, 0), operations, Dress::Plain);
    let (cut, strides) = cut_session(&mut rng, &text);
    text.extend_from_slice(b"new\n");
    text.extend_from_slice(&cut);
    (text, strides)
}

/// The session with each of its advances cut; one that is refused stays whole.
fn cut_session(rng: &mut Rng, whole: &[u8]) -> (Vec<u8>, Strides) {
    let mut machine = Machine::new();
    let mut text = Vec::new();
    let mut strides =
        Strides { counts: Counts { pairs: 1, ..Counts::default() }, ..Strides::default() };
    for line in lines(whole) {
        let call = parse(line).ok().flatten().expect("a plain session has a call to a line");
        let cuts = cuts(rng, &machine, &call);
        for (counts, steps) in &cuts {
            text.extend_from_slice(format!("advance {counts:x} {steps:x}\n").as_bytes());
        }
        if cuts.is_empty() {
            text.extend_from_slice(line);
            text.push(b'\n');
        } else {
            strides.counts.count(&machine, &cuts);
        }
        strides.parts.push(cuts.len().max(1));
        call.operation.run(&mut machine, &call.operands);
    }
    (text, strides)
}

/// The pieces of an advance, as counts and steps; none of another operation.
fn cuts(rng: &mut Rng, machine: &Machine, call: &Call) -> Vec<(u64, u64)> {
    if call.operation.name != "advance" || call.operands[0] >= WORD {
        return Vec::new();
    }
    let (counts, steps) = (call.operands[0], call.operands[1]);
    let number = 1 + rng.below(4);
    let mut places: Vec<u64> = (0..number).map(|_| a_place(rng, machine, counts)).collect();
    places.push(counts);
    places.sort_unstable();
    // A place twice is an empty piece.
    if !rng.one_in(3) {
        places.dedup();
    }
    let mut turns: Vec<u64> = places[1..].iter().map(|_| a_part(rng, steps)).collect();
    turns.push(steps);
    turns.sort_unstable();
    differences(&places).into_iter().zip(differences(&turns)).collect()
}

/// A place to cut at: on Compare, at the wrap of Count, next to Compare, at an end, or anywhere.
fn a_place(rng: &mut Rng, machine: &Machine, counts: u64) -> u64 {
    let to_compare = to(machine, machine.cop0.read(reg::COMPARE));
    let place = match rng.below(8) {
        0 | 1 => to_compare,
        2 => to(machine, 0),
        3 => aim::near(rng, to_compare),
        4 => rng.pick(&[0, counts]),
        _ => u64::MAX,
    };
    if place <= counts {
        place
    } else {
        a_part(rng, counts)
    }
}

fn a_part(rng: &mut Rng, whole: u64) -> u64 {
    let any = rng.next();
    whole.checked_add(1).map_or(any, |bound| any % bound)
}

/// The distance from Count.
fn to(machine: &Machine, place: u64) -> u64 {
    place.wrapping_sub(machine.cop0.read(reg::COUNT)) % WORD
}

/// From 0 to the first of some places in their order, and from each to the next.
fn differences(places: &[u64]) -> Vec<u64> {
    let before = std::iter::once(&0).chain(places);
    before.zip(places).map(|(before, place)| place - before).collect()
}

impl Counts {
    fn count(&mut self, machine: &Machine, cuts: &[(u64, u64)]) {
        let (compare, wrap) = (to(machine, machine.cop0.read(reg::COMPARE)), to(machine, 0));
        self.advances += 1;
        self.pieces += cuts.len() as u64;
        self.empty += cuts.iter().filter(|(counts, _)| *counts == 0).count() as u64;
        let mut place = 0;
        for (counts, _) in &cuts[..cuts.len() - 1] {
            place += counts;
            self.on_compare += u64::from(place == compare);
            self.on_wrap += u64::from(place == wrap);
        }
    }
}

impl Strides {
    /// Where the two sessions of a pair part: the line of the whole one's operation, and both
    /// answers. The pieces of an advance answer as many edges as the advance, and all else the same.
    pub fn parted(&self, answers: &[Answer]) -> Option<(usize, String, String)> {
        let (whole, cut) = answers.split_at(self.parts.len());
        // The `new` between the two.
        let mut cut = &cut[1..];
        for (parts, answer) in self.parts.iter().zip(whole) {
            let (pieces, rest) = cut.split_at(*parts);
            cut = rest;
            let together = joined(pieces);
            if together != answer.text {
                return Some((answer.line, answer.text.clone(), together));
            }
        }
        None
    }
}

/// The answer of an advance in pieces: how many edges they tell.
fn joined(pieces: &[Answer]) -> String {
    if let [one] = pieces {
        return one.text.clone();
    }
    let edges = pieces.iter().filter(|piece| piece.text == "edge 1").count();
    format!("edge {edges}")
}

#[cfg(test)]
mod tests {
    use super::*;
    use oracle::play::play;

    fn parted(parts: &[usize], trace: &[u8]) -> Option<(usize, String, String)> {
        let answers: Vec<Answer> = play(trace).collect();
        Strides { parts: parts.to_vec(), counts: Counts::default() }.parted(&answers)
    }

    #[test]
    fn edges_of_pieces_add_up() {
        let agree = b"mtc0 b 5\nadvance 6 2\nstate\nnew\nmtc0 b 5\nadvance 0 1\nadvance 5 1\n\
                      advance 1 0\nstate\n";
        assert_eq!(parted(&[1, 3, 1], agree), None);
        let early = b"mtc0 b 5\nadvance 6 2\nnew\nmtc0 b 5\nadvance 4 1\nadvance 0 1\n";
        let told = Some((2, "edge 1".into(), "edge 0".into()));
        assert_eq!(parted(&[1, 2], early), told);
    }

    #[test]
    fn pieces_make_up_the_whole() {
        for seed in 0..20 {
            let (text, strides) = pair(Rng::new(seed, 1), 60);
            let answers: Vec<Answer> = play(&text).collect();
            assert_eq!(
                answers.len(),
                strides.parts.len() + 1 + strides.parts.iter().sum::<usize>()
            );
            assert_eq!(strides.parted(&answers), None);
        }
    }

    #[test]
    fn differences_of_places() {
        assert_eq!(differences(&[0, 7, 7, 9]), [0, 7, 0, 2]);
    }
}
