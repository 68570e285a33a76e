//! Traces with something wrong in them, or something odd that must not count as wrong.

use oracle::exceptions::{detail, EXCEPTIONS};
use oracle::operations::{find, Operation, OPERATIONS};
use oracle::parse::{Operand, LIMIT};

use crate::rng::Rng;
use crate::{aim, caches, exceptions, mixed, translation};

type Kind = fn(&mut Rng) -> Vec<u8>;

/// Lines to put into a good trace.
const LINES: [Kind; 9] = [
    misspelt,
    too_few_operands,
    too_many_operands,
    too_many_digits,
    bad_digit,
    out_of_range,
    several_faults,
    stray_return,
    strange_space,
];

/// Whole traces.
const TEXTS: [Kind; 9] = [
    no_last_end,
    no_operation,
    long_line,
    many_words,
    at_the_limit,
    over_the_limit,
    noise,
    garbage,
    last_return,
];

/// The plain faults of each operation and of each exception, one to a trace, as long as there are
/// any.
pub fn plain_fault(number: u64) -> Option<Vec<u8>> {
    let exceptions = (0..EXCEPTIONS.len() as u64).flat_map(details_over);
    OPERATIONS.iter().flat_map(plain_faults).chain(exceptions).nth(number as usize)
}

/// A trace of the kind of a number; the kinds come in turn.
pub fn malformed(mut rng: Rng, number: u64) -> Vec<u8> {
    let kind = number as usize % (LINES.len() + TEXTS.len());
    match LINES.get(kind) {
        Some(line) => {
            let line = line(&mut rng);
            insert(&mut rng, &line)
        }
        None => TEXTS[kind - LINES.len()](&mut rng),
    }
}

/// An operation misspelt, with an operand too many or too few, and with each operand bad or out
/// of range in turn.
fn plain_faults(operation: &Operation) -> Vec<Vec<u8>> {
    let name = operation.name.as_bytes();
    let zeros = vec![0; operation.operands.len()];
    let good = words(&zeros);
    let mut faults = vec![line(&name.to_ascii_uppercase(), &good)];
    faults.push(line(name, &[&good[..], &[b"0".to_vec()]].concat()));
    for (at, operand) in operation.operands.iter().enumerate() {
        faults.push(line(name, &good[..at]));
        let over = u128::from(operand.greatest(&zeros)) + 1;
        for word in ["g".into(), "0".repeat(17), format!("{over:x}")] {
            let mut operands = good.clone();
            operands[at] = word.into_bytes();
            faults.push(line(name, &operands));
        }
    }
    faults
}

/// An exception with its operand A one over what it may be, and with B so.
fn details_over(exception: u64) -> [Vec<u8>; 2] {
    [0, 1].map(|place| {
        let mut values = [exception, 0, 0, 0, 0, 0];
        values[1 + place] = detail(exception, place).greatest(&values) + 1;
        line(b"dispatch", &words(&values))
    })
}

/// A good trace with a line put in somewhere.
fn insert(rng: &mut Rng, line: &[u8]) -> Vec<u8> {
    let mut text = good(rng);
    let ends = text.iter().enumerate().filter(|(_, byte)| **byte == b'\n');
    let ends: Vec<usize> = ends.map(|(at, _)| at + 1).collect();
    let at = rng.pick(&ends);
    let end: &[u8] = rng.pick(&[b"\n", b"\r\n"]);
    text.splice(at..at, [line, end].concat());
    text
}

fn good(rng: &mut Rng) -> Vec<u8> {
    let operations = 1 + rng.index(40);
    let session =
        rng.pick(&[mixed::session, translation::tame, exceptions::session, caches::session]);
    session(Rng::new(rng.next(), 0), operations)
}

/// An operation that takes a number at least, and good operands for it.
fn with_operands(rng: &mut Rng) -> (&'static Operation, Vec<Vec<u8>>) {
    let takes = OPERATIONS.iter().filter(|row| !row.operands.is_empty());
    let takes: Vec<&Operation> = takes.collect();
    let operation = rng.pick(&takes);
    (operation, words(&good_operands(rng, operation)))
}

fn good_operands(rng: &mut Rng, operation: &Operation) -> Vec<u64> {
    let mut values = Vec::new();
    for operand in operation.operands {
        values.push(match operand.greatest(&values) {
            u64::MAX => aim::value(rng),
            greatest => rng.below(greatest + 1),
        });
    }
    values
}

fn words(operands: &[u64]) -> Vec<Vec<u8>> {
    operands.iter().map(|value| format!("{value:x}").into_bytes()).collect()
}

fn line(name: &[u8], operands: &[Vec<u8>]) -> Vec<u8> {
    let words = operands.iter().map(Vec::as_slice);
    let words: Vec<&[u8]> = std::iter::once(name).chain(words).collect();
    words.join(&b' ')
}

fn misspelt(rng: &mut Rng) -> Vec<u8> {
    let operation = &OPERATIONS[rng.index(OPERATIONS.len())];
    let mut name = operation.name.as_bytes().to_vec();
    let at = rng.index(name.len());
    match rng.below(5) {
        0 => name.make_ascii_uppercase(),
        1 => drop(name.remove(at)),
        2 => name.push(rng.pick(b"sx0_#\r")),
        3 => name.insert(at, rng.pick(b"\0\xFF\xA0-#e")),
        _ => name[at] ^= 1 << rng.below(8),
    }
    line(&name, &words(&good_operands(rng, operation)))
}

fn too_few_operands(rng: &mut Rng) -> Vec<u8> {
    let (operation, mut operands) = with_operands(rng);
    operands.truncate(rng.index(operands.len()));
    line(operation.name.as_bytes(), &operands)
}

fn too_many_operands(rng: &mut Rng) -> Vec<u8> {
    let operation = &OPERATIONS[rng.index(OPERATIONS.len())];
    let mut operands = words(&good_operands(rng, operation));
    for _ in 0..=rng.below(3) {
        let more: &[u8] = rng.pick(&[b"0", b"1", b"zz", b"#", b"00000000000000000"]);
        operands.push(more.to_vec());
    }
    line(operation.name.as_bytes(), &operands)
}

fn too_many_digits(rng: &mut Rng) -> Vec<u8> {
    let (operation, mut operands) = with_operands(rng);
    let at = rng.index(operands.len());
    let digit = rng.pick(b"001f");
    let length = rng.pick(&[17, 17, 18, 32, 33, 65]);
    operands[at] = vec![digit; length];
    line(operation.name.as_bytes(), &operands)
}

fn bad_digit(rng: &mut Rng) -> Vec<u8> {
    let (operation, mut operands) = with_operands(rng);
    spoil(rng, &mut operands);
    line(operation.name.as_bytes(), &operands)
}

/// Puts a byte that is no digit into a number: neighbours of the digits, signs, other bytes.
fn spoil(rng: &mut Rng, operands: &mut [Vec<u8>]) {
    let at = rng.index(operands.len());
    let place = rng.index(operands[at].len() + 1);
    let byte = rng.pick(b"gG/:@`xXhH-+_.,#\0\x0B\x0C\x7F\x80\xE9\xFF\r");
    operands[at].insert(place, byte);
}

fn out_of_range(rng: &mut Rng) -> Vec<u8> {
    let bounded = OPERATIONS.iter().filter(|row| row.operands.iter().any(is_bounded));
    let bounded: Vec<&Operation> = bounded.collect();
    let operation = rng.pick(&bounded);
    let mut operands = good_operands(rng, operation);
    exceed(rng, operation, &mut operands);
    line(operation.name.as_bytes(), &words(&operands))
}

fn is_bounded(operand: &Operand) -> bool {
    *operand != Operand::Long
}

/// Takes a bounded operand over its bound.
fn exceed(rng: &mut Rng, operation: &Operation, operands: &mut [u64]) {
    let bounded = operation.operands.iter().enumerate();
    let bounded: Vec<(usize, &Operand)> =
        bounded.filter(|(_, operand)| is_bounded(operand)).collect();
    let (at, operand) = rng.pick(&bounded);
    let greatest = operand.greatest(operands);
    let over = rng.pick(&[1, 1, 1, 2, greatest + 1, 1 << 32, u64::MAX - greatest]);
    operands[at] = greatest + over;
}

/// Several faults in one line: the first kind in the order of checks is the one to report.
fn several_faults(rng: &mut Rng) -> Vec<u8> {
    let name = rng.pick(&["set_ip", "translate_via", "dispatch", "d_flush_index"]);
    let operation = find(name.as_bytes()).expect("an operation with two bounds");
    let mut values = good_operands(rng, operation);
    exceed(rng, operation, &mut values);
    exceed(rng, operation, &mut values);
    let mut operands = words(&values);
    if rng.flag() {
        spoil(rng, &mut operands);
    }
    if rng.one_in(3) {
        operands.push(b"0".to_vec());
    }
    let name = if rng.one_in(4) { name.to_uppercase() } else { name.into() };
    line(name.as_bytes(), &operands)
}

fn stray_return(rng: &mut Rng) -> Vec<u8> {
    let (operation, operands) = with_operands(rng);
    let mut line = line(operation.name.as_bytes(), &operands);
    let at = rng.pick(&[0, operation.name.len(), operation.name.len() + 1, line.len()]);
    line.insert(at, b'\r');
    line
}

/// Bytes that look like spaces and are not.
fn strange_space(rng: &mut Rng) -> Vec<u8> {
    let (operation, operands) = with_operands(rng);
    let mut line = line(operation.name.as_bytes(), &operands);
    line[operation.name.len()] = rng.pick(b"\0\x0B\x0C\xA0,=\t");
    line
}

fn no_last_end(rng: &mut Rng) -> Vec<u8> {
    let mut text = good(rng);
    text.pop();
    text.extend_from_slice(rng.pick(&[b"" as &[u8], b"\n#", b" ", b"\ncount", b"\nmfc0", b"\n\r"]));
    text
}

fn no_operation(rng: &mut Rng) -> Vec<u8> {
    let texts: [&[u8]; 8] =
        [b"", b"\n", b"\r\n", b"#", b"# only this \xC3\xA9\0\r\xFF\n", b" \t\n\t \n", b"\r", b" "];
    rng.pick(&texts).to_vec()
}

fn long_line(rng: &mut Rng) -> Vec<u8> {
    let length = 1 + rng.index(100_000);
    let byte = rng.pick(b" \t#0fx\r\0\xFF");
    let long = vec![byte; length];
    let (before, after): (&[u8], &[u8]) =
        rng.pick(&[(b"", b"count"), (b"mfc0 ", b""), (b"mfc0 ", b" c"), (b"#", b""), (b"", b"")]);
    let line = [before, &long, after].concat();
    insert(rng, &line)
}

fn many_words(rng: &mut Rng) -> Vec<u8> {
    let name: &[u8] = rng.pick(&[b"mfc0", b"advance", b"state", b"#", b"none"]);
    let word: &[u8] = rng.pick(&[b" 0", b" zz", b" #"]);
    let line = [name, &word.repeat(1 + rng.index(20_000))].concat();
    insert(rng, &line)
}

/// The longest trace, with operations at both of its ends.
fn at_the_limit(rng: &mut Rng) -> Vec<u8> {
    let first = good(rng);
    let last = good(rng);
    let mut text = [&first[..], b"#"].concat();
    text.resize(LIMIT - last.len() - 1, rng.pick(b"#\0 x\xFF"));
    text.push(b'\n');
    text.extend(last);
    text
}

fn over_the_limit(rng: &mut Rng) -> Vec<u8> {
    let mut text = at_the_limit(rng);
    text.resize(LIMIT + rng.pick(&[1, 1, 2, 4096, LIMIT]), b'\n');
    text
}

/// A good trace with a few bytes changed, lost or put in.
fn noise(rng: &mut Rng) -> Vec<u8> {
    let mut text = good(rng);
    for _ in 0..=rng.below(3) {
        let at = rng.index(text.len());
        match rng.below(4) {
            0 => text[at] ^= 1 << rng.below(8),
            1 => text[at] = rng.pick(b"0fF \t\n\r#g"),
            2 => drop(text.remove(at)),
            _ => text.insert(at, rng.pick(b"0 \t\n\r#\0\xFF")),
        }
    }
    text
}

fn garbage(rng: &mut Rng) -> Vec<u8> {
    let length = rng.index(200);
    (0..length).map(|_| rng.pick(b"0 \t\n\r#\0\xFFcountsae")).collect()
}

/// A `\r` that no `\n` follows, at the end of all.
fn last_return(rng: &mut Rng) -> Vec<u8> {
    let mut text = good(rng);
    let end = text.iter().rposition(|byte| *byte != b'\n' && *byte != b'\r');
    text.truncate(end.map_or(0, |at| at + 1));
    text.extend_from_slice(rng.pick(&[b"\r" as &[u8], b"\r\r\n", b"\n\r", b"\n\r\n", b" \r"]));
    text
}
