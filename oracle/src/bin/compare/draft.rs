//! A good trace in the making, played on the original as it grows, so that the next line can be
//! aimed at the state that the ones before have made.

use oracle::machine::Machine;
use oracle::parse::{lines, parse};

use crate::exceptions::NMI;
use crate::rng::Rng;

/// Between two lines `state` stand about this many operations: a divergence shows near its cause.
const BETWEEN_STATES: u64 = 40;

/// The operations of a session.
const SESSION: [&str; 21] = [
    "mfc0",
    "dmfc0",
    "mtc0",
    "dmtc0",
    "set_ip",
    "interrupt_pending",
    "advance",
    "is_shutdown",
    "entry",
    "page_size",
    "pair_size",
    "lookup",
    "write_entry",
    "read_entry",
    "probe",
    "jtlb_has_match",
    "itlb_probe",
    "itlb_fill",
    "translate_via",
    "dispatch",
    "eret",
];

pub struct Draft {
    pub rng: Rng,
    pub machine: Machine,
    pub operations: usize,
    text: Vec<u8>,
    dress: Dress,
    range: Range,
}

/// How the lines are written. All forms mean the same.
#[derive(Clone, Copy)]
pub enum Dress {
    Plain,
    /// Letter cases, leading zeros, spaces, tabs, `\r\n`, comments and blank lines.
    Fancy,
}

/// Which operations are put.
#[derive(Clone, Copy)]
pub enum Range {
    All,
    /// Those of a session, with `new` and `state`. Another is put in a session's form, if it has
    /// one.
    Session,
}

impl Draft {
    pub fn new(rng: Rng, dress: Dress) -> Self {
        Self::of(rng, dress, Range::All)
    }

    pub fn of(rng: Rng, dress: Dress, range: Range) -> Self {
        Self { rng, machine: Machine::new(), operations: 0, text: Vec::new(), dress, range }
    }

    /// Adds an operation, and now and then a `state`.
    pub fn put(&mut self, name: &str, operands: &[u64]) {
        match self.range {
            Range::All => self.put_line(name, operands),
            Range::Session => match in_session(name, operands) {
                Some((name, operands)) => self.put_line(name, &operands),
                None => return,
            },
        }
        if self.rng.one_in(BETWEEN_STATES) {
            self.put_line("state", &[]);
        }
    }

    /// Ends in a `state`.
    pub fn finish(mut self) -> Vec<u8> {
        self.put_line("state", &[]);
        self.text
    }

    /// What was written from a length on; see [`Draft::length`].
    pub fn since(&self, length: usize) -> Vec<u8> {
        self.text[length..].to_vec()
    }

    pub fn length(&self) -> usize {
        self.text.len()
    }

    /// Adds lines as they are.
    pub fn append(&mut self, text: &[u8]) {
        for call in lines(text).filter_map(|line| parse(line).expect("a draft is a good trace")) {
            call.operation.run(&mut self.machine, &call.operands);
            self.operations += 1;
        }
        self.text.extend_from_slice(text);
    }

    fn put_line(&mut self, name: &str, operands: &[u64]) {
        let line = match self.dress {
            Dress::Plain => plain(name, operands),
            Dress::Fancy => fancy(&mut self.rng, name, operands),
        };
        self.append(line.as_bytes());
    }
}

/// An operation as a room's member does it: through the moves of an instruction, the advance and
/// the exceptions.
fn in_session<'a>(name: &'a str, operands: &[u64]) -> Option<(&'a str, Vec<u64>)> {
    let own = ["new", "state"].contains(&name) || SESSION.contains(&name);
    match name {
        "read" => Some(("dmfc0", operands.to_vec())),
        "write" | "set_hardware" => Some(("dmtc0", operands.to_vec())),
        "tick_random" => Some(("advance", vec![1, 1])),
        "tick_random_by" => Some(("advance", vec![operands[0] % 16, operands[0]])),
        "nmi" => Some(("dispatch", vec![NMI, 0, 0, operands[0], 0, 0])),
        _ => own.then(|| (name, operands.to_vec())),
    }
}

fn plain(name: &str, operands: &[u64]) -> String {
    let words = operands.iter().map(|operand| format!(" {operand:x}"));
    words.fold(name.to_string(), |line, word| line + &word) + "\n"
}

fn fancy(rng: &mut Rng, name: &str, operands: &[u64]) -> String {
    let mut line = String::new();
    if rng.one_in(8) {
        line += rng.pick(&["\n", "# \u{e9}t\u{e9} \0\n", " \t\r\n", "\t#\r\r\n", "#mfc0 1\n"]);
    }
    line += rng.pick(&["", "", "", " ", "\t", "  \t "]);
    line += name;
    for operand in operands {
        line += rng.pick(&[" ", " ", "  ", "\t", " \t "]);
        line += &digits(rng, *operand);
    }
    line += rng.pick(&["", "", "", " ", "\t\t"]);
    line + rng.pick(&["\n", "\r\n"])
}

fn digits(rng: &mut Rng, number: u64) -> String {
    match rng.below(5) {
        0 => format!("{number:X}"),
        1 => format!("{number:016x}"),
        2 => format!("{number:016X}"),
        3 => format!("{number:02x}"),
        _ => format!("{number:x}"),
    }
}
