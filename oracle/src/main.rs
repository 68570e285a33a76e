//! The original's side of `replay`: the same command line, the same text.

use std::ffi::OsStr;
use std::fs::File;
use std::io::{self, BufWriter, Read, Write};
use std::os::unix::ffi::OsStrExt;

use oracle::parse::LIMIT;
use oracle::play::play;

fn main() -> io::Result<()> {
    let mut out = BufWriter::new(io::stdout().lock());
    let mut names = std::env::args_os().skip(1).peekable();
    if names.peek().is_none() {
        answer(&read(io::stdin().lock())?, &mut out)?;
    }
    for name in names {
        answer_file(&name, &mut out)?;
    }
    out.flush()
}

fn answer_file(name: &OsStr, out: &mut impl Write) -> io::Result<()> {
    out.write_all(b"trace ")?;
    out.write_all(name.as_bytes())?;
    let Ok(trace) = File::open(name).and_then(read) else {
        return writeln!(out, ": cannot be read");
    };
    writeln!(out)?;
    answer(&trace, out)
}

fn answer(trace: &[u8], out: &mut impl Write) -> io::Result<()> {
    play(trace).try_for_each(|answer| writeln!(out, "{}", answer.text))
}

/// One byte over the limit says as much as all of them.
fn read(source: impl Read) -> io::Result<Vec<u8>> {
    let mut bytes = Vec::new();
    source.take(LIMIT as u64 + 1).read_to_end(&mut bytes)?;
    Ok(bytes)
}
