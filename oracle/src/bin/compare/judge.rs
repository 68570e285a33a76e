//! Holds what a program answered to what the original answers.

use std::collections::{BTreeMap, HashMap};

use oracle::operations::OPERATIONS;
use oracle::parse::{lines, Fault};
use oracle::play::{play, Answer, TOO_LONG};

/// How often each operation and each fault was compared, by the kinds of answer.
#[derive(Default)]
pub struct Tally(HashMap<&'static str, BTreeMap<String, u64>>);

impl Tally {
    pub fn total(&self) -> u64 {
        self.0.values().flat_map(BTreeMap::values).sum()
    }

    fn add(&mut self, answer: &Answer) {
        let kind = kind(&answer.text);
        let kinds = self.0.entry(answer.asked).or_default();
        match kinds.get_mut(kind) {
            Some(number) => *number += 1,
            None => drop(kinds.insert(kind.into(), 1)),
        }
    }

    /// A row for each operation and each fault, those that never came among them.
    pub fn rows(&self) -> impl Iterator<Item = (&'static str, u64)> + '_ {
        let operations = OPERATIONS.iter().map(|row| row.name);
        let faults = Fault::ALL.iter().map(|fault| fault.words());
        let names = operations.chain(faults).chain([TOO_LONG]);
        names.map(|name| (name, self.0.get(name).map_or(0, |kinds| kinds.values().sum())))
    }

    /// The kinds of an operation's answers, where it has more than one. A fault's answers have
    /// their lines in them, and are not told apart.
    pub fn kinds(&self, name: &str) -> impl Iterator<Item = (&str, u64)> {
        let kinds = OPERATIONS.iter().any(|row| row.name == name).then(|| self.0.get(name));
        let kinds = kinds.flatten().filter(|kinds| kinds.len() > 1);
        kinds.into_iter().flatten().map(|(kind, number)| (kind.as_str(), *number))
    }
}

/// An answer without its numbers: `at`, `refill`, `= 1`, `refused 4`.
fn kind(text: &str) -> &str {
    const NUMBER: usize = 16;
    let words = text.split([' ', '\n']);
    let words = words.take_while(|word| word.len() < NUMBER);
    &text[..words.map(|word| word.len() + 1).sum::<usize>().saturating_sub(1)]
}

/// Where a program and the original part.
pub struct Difference {
    /// The trace's line, from 1; 0 for the trace as a whole.
    pub line: usize,
    /// What that line holds.
    pub asked: String,
    pub original: String,
    pub other: String,
}

/// The first difference between the original's answers to a trace and a program's.
pub fn judge(trace: &[u8], wrote: &[u8], tally: &mut Tally) -> Option<Difference> {
    let mut rest = wrote;
    let mut last = 0;
    for answer in play(trace) {
        last = answer.line;
        let expected = format!("{}\n", answer.text);
        let Some(after) = rest.strip_prefix(expected.as_bytes()) else {
            return Some(differ(trace, &answer, rest));
        };
        rest = after;
        tally.add(&answer);
    }
    let more = lines(rest).next()?;
    let original = "nothing more".into();
    Some(Difference { line: last, asked: asked(trace, last), original, other: shown(more) })
}

fn differ(trace: &[u8], answer: &Answer, rest: &[u8]) -> Difference {
    let (original, other) = unequal(&answer.text, rest);
    Difference { line: answer.line, asked: asked(trace, answer.line), original, other }
}

fn asked(trace: &[u8], line: usize) -> String {
    let line = line.checked_sub(1).and_then(|before| lines(trace).nth(before));
    line.map_or("the whole trace".into(), shown)
}

/// The first line that is unequal; of two long ones with as many words, the word alone.
fn unequal(text: &str, rest: &[u8]) -> (String, String) {
    let mut theirs = rest.split_inclusive(|byte| *byte == b'\n');
    for ours in text.split('\n') {
        let Some(line) = theirs.next() else {
            return (shown(ours.as_bytes()), "nothing".into());
        };
        if line.strip_suffix(b"\n") != Some(ours.as_bytes()) {
            let line = String::from_utf8_lossy(line);
            return word(ours, &line)
                .unwrap_or_else(|| (shown(ours.as_bytes()), shown(line.as_bytes())));
        }
    }
    unreachable!("all lines are equal")
}

/// A line with more words than this, as `clock ..`, is shown by its fields.
const LINE_OF_FIELDS: usize = 6;

/// The first unequal word of two lines such as `regs ..`, as `regs[12] V`.
fn word(ours: &str, theirs: &str) -> Option<(String, String)> {
    let ours: Vec<&str> = ours.split(' ').collect();
    let theirs: Vec<&str> = theirs.strip_suffix('\n')?.split(' ').collect();
    let alike = ours.len() > LINE_OF_FIELDS && ours.len() == theirs.len() && ours[0] == theirs[0];
    let at = (1..ours.len()).find(|at| alike && ours[*at] != theirs[*at])?;
    let place = format!("{}[{}]{}", ours[0], at - 1, of_entry(&ours));
    Some((format!("{place} {}", ours[at]), format!("{place} {}", theirs[at])))
}

/// Which of the entries a line shows.
fn of_entry(words: &[&str]) -> String {
    let number = u64::from_str_radix(words[1], 16).ok().filter(|_| words[0] == "entry");
    number.map_or(String::new(), |number| format!(" of {number}"))
}

/// A line fit to be printed: other bytes as escapes, and not too long.
fn shown(line: &[u8]) -> String {
    const LONGEST: usize = 120;
    let line = line.strip_suffix(b"\n").unwrap_or(line);
    let cut = &line[..line.len().min(LONGEST)];
    let dots = if cut.len() < line.len() { ".." } else { "" };
    format!("{}{dots}", cut.escape_ascii())
}

/// Cuts what a program wrote into the answers to each trace, in the order of their names. Where a
/// heading is not, there are no answers.
pub fn sections<'a>(wrote: &'a [u8], names: &[String]) -> Vec<&'a [u8]> {
    let mut rest = wrote;
    let mut sections = Vec::new();
    for (at, name) in names.iter().enumerate() {
        let Some(body) = rest.strip_prefix(heading(name).as_bytes()) else {
            sections.push(&rest[..0]);
            continue;
        };
        let end = match names.get(at + 1) {
            Some(next) => find_line(body, heading(next).as_bytes()),
            None => body.len(),
        };
        sections.push(&body[..end]);
        rest = &body[end..];
    }
    sections
}

fn heading(name: &str) -> String {
    format!("trace {name}\n")
}

/// Where a line starts, or the text's length.
fn find_line(text: &[u8], line: &[u8]) -> usize {
    let starts = text.split_inclusive(|byte| *byte == b'\n').scan(0, |at, piece| {
        let start = *at;
        *at += piece.len();
        Some((start, piece))
    });
    let mut found = starts.filter(|(_, piece)| *piece == line);
    found.next().map_or(text.len(), |(start, _)| start)
}

#[cfg(test)]
mod tests {
    use super::*;

    fn differs(trace: &[u8], wrote: &[u8]) -> Option<(usize, String, String)> {
        let difference = judge(trace, wrote, &mut Tally::default())?;
        Some((difference.line, difference.original, difference.other))
    }

    #[test]
    fn equal_answers() {
        let mut tally = Tally::default();
        let wrote = b"ok\n= 0000000000000005\nline 4: bad number\n";
        assert!(judge(b"set_now 5\n\ncount_now\nmfc0 g\n", wrote, &mut tally).is_none());
        assert_eq!(tally.total(), 3);
    }

    #[test]
    fn first_unequal_answer() {
        let told = differs(b"set_now 5\n# why\ntimer_edge\n", b"ok\n= 1\n");
        assert_eq!(told, Some((3, "= 0".into(), "= 1".into())));
        let told = differs(b"set_now 5\n", b"ok");
        assert_eq!(told, Some((1, "ok".into(), "ok".into())), "a line without its end");
        let told = differs(b"set_now 5\ncount_now", b"ok\n");
        assert_eq!(told, Some((2, "= 0000000000000005".into(), "nothing".into())));
        let told = differs(b"set_now 5\n", b"ok\nok\n");
        assert_eq!(told, Some((1, "nothing more".into(), "ok".into())));
    }

    #[test]
    fn one_word_of_a_state() {
        let state = play(b"state").next().unwrap().text + "\n";
        let wrong = state.replace("400004", "400005");
        let status = |last| format!("regs[12] 000000000040000{last}");
        assert_eq!(differs(b"state", wrong.as_bytes()), Some((1, status(4), status(5))));
        let wrong = state.replace("fffffc0000", "fffffd0000");
        let vpn2 = |digit| format!("entry[2] of 31 000000fffff{digit}0000");
        assert_eq!(differs(b"state", wrong.as_bytes()), Some((1, vpn2('c'), vpn2('d'))));
    }

    #[test]
    fn kinds_of_answers() {
        assert_eq!(kind("at 0000000000000005 1"), "at");
        assert_eq!(kind("= 0000000000000005"), "=");
        assert_eq!(kind("= 1"), "= 1");
        assert_eq!(kind("refill"), "refill");
        assert_eq!(kind("refused 4"), "refused 4");
        let mut tally = Tally::default();
        judge(b"timer_edge\naccess", b"= 0\naccess 0000000000000000 0 1\n", &mut tally);
        assert_eq!(tally.total(), 2);
        assert_eq!(tally.kinds("access").count(), 0);
    }

    #[test]
    fn sections_by_heading() {
        let names = ["a".to_string(), "b".to_string(), "c".to_string()];
        let wrote = b"trace a\nok\ntrace b\ntrace c\ntrace too long\n";
        let parts: [&[u8]; 3] = [b"ok\n", b"", b"trace too long\n"];
        assert_eq!(sections(wrote, &names), parts);
        assert_eq!(sections(b"trace a\nok\n", &names), [b"ok\n" as &[u8], b"", b""]);
    }
}
