//! The run of a comparison: which traces are made, and how a program is given them.

use std::collections::BTreeMap;
use std::io::Write;
use std::path::{Path, PathBuf};
use std::process::{Command, Output, Stdio};
use std::{fs, io, process, thread};

use oracle::play::{play, Answer};

use crate::judge::{judge, sections, Difference, Tally};
use crate::options::{repository, Options};
use crate::rooms::{Counts, Strides};
use crate::trace::{Trace, MIXED};

/// Traces that the program is given at a time.
const BATCH: usize = 32;

/// Where a trace that differs is kept, from the repository's root.
const KEPT: &str = "target/compare";

pub struct Comparison {
    options: Options,
    tally: Tally,
    /// How many operations were compared in the traces of each kind.
    kinds: BTreeMap<&'static str, u64>,
    /// What was cut in the stride pairs.
    strides: Counts,
    traces: u64,
    /// Traces that were given on standard input as well.
    inputs: usize,
    /// Where the traces of a batch stand while the program plays them.
    room: PathBuf,
}

impl Comparison {
    pub fn new(options: Options) -> Self {
        let room = repository().join(KEPT).join(format!("batch-{}", process::id()));
        Self {
            options,
            tally: Tally::default(),
            kinds: BTreeMap::new(),
            strides: Counts::default(),
            traces: 0,
            inputs: 0,
            room,
        }
    }

    /// Compares until enough operations are, or there is a difference to tell.
    pub fn run(&mut self) -> io::Result<Option<String>> {
        let program = &self.options.replay;
        let lost = |error| io::Error::other(format!("{}: {error}", program.display()));
        fs::metadata(program).map_err(lost)?;
        fs::create_dir_all(&self.room)?;
        let told = self.run_batches();
        fs::remove_dir_all(&self.room)?;
        told
    }

    fn run_batches(&mut self) -> io::Result<Option<String>> {
        while self.tally.total() < self.options.operations {
            let told = self.run_batch()?;
            if told.is_some() {
                return Ok(told);
            }
        }
        Ok(None)
    }

    pub fn report(&self) {
        println!("seed {:x}", self.options.seed);
        println!("{} traces, {} operations", self.traces, self.tally.total());
        println!("{} of the traces on standard input as well", self.inputs);
        println!("operations in traces of each kind");
        for (kind, number) in &self.kinds {
            println!("  {kind:<30}{number:>9}");
        }
        let Counts { pairs, advances, pieces, empty, on_compare, on_wrap } = self.strides;
        println!(
            "{pairs} stride pairs: {advances} advances in {pieces} pieces, {empty} of them empty;"
        );
        println!("  {on_compare} cuts on Compare, {on_wrap} at the wrap of Count");
        println!("operations and faults, each with its kinds of answer");
        for (name, number) in self.tally.rows() {
            println!("  {name:<30}{number:>9}");
            for (kind, number) in self.tally.kinds(name) {
                println!("    {kind:<28}{number:>9}");
            }
        }
    }

    /// What was compared, in a line.
    pub fn summary(&self) -> String {
        let mixed: u64 = MIXED.iter().filter_map(|kind| self.kinds.get(kind)).sum();
        let (total, pairs) = (self.tally.total(), self.strides.pairs);
        format!("{total} operations, {mixed} of them in mixed sessions; {pairs} stride pairs")
    }

    fn run_batch(&mut self) -> io::Result<Option<String>> {
        let batch = self.next_batch();
        let told = self.compare_files(&batch)?;
        if told.is_some() {
            return Ok(told);
        }
        let chosen = &batch[self.inputs % batch.len()];
        self.inputs += 1;
        compare_input(&self.options.replay, chosen)
    }

    fn compare_files(&mut self, batch: &[Trace]) -> io::Result<Option<String>> {
        for trace in batch {
            fs::write(self.room.join(&trace.name), &trace.text)?;
        }
        let names: Vec<String> = batch.iter().map(|trace| trace.name.clone()).collect();
        let mut command = Command::new(&self.options.replay);
        let output = command.args(&names).current_dir(&self.room).output()?;
        for (trace, wrote) in batch.iter().zip(sections(&output.stdout, &names)) {
            let before = self.tally.total();
            if let Some(difference) = judge(&trace.text, wrote, &mut self.tally) {
                keep(trace, wrote)?;
                return Ok(Some(tell(trace, &difference) + &ending(&output)));
            }
            if let Some(strides) = &trace.strides {
                if let Some(told) = parted(trace, strides) {
                    keep(trace, wrote)?;
                    return Ok(Some(told));
                }
                self.strides.add(&strides.counts);
            }
            *self.kinds.entry(trace.kind).or_default() += self.tally.total() - before;
            self.traces += 1;
            fs::remove_file(self.room.join(&trace.name))?;
        }
        Ok(told_ending(&output))
    }

    /// The next traces, no more of them than are needed. A line counts for an operation here.
    fn next_batch(&self) -> Vec<Trace> {
        let mut left = self.options.operations.saturating_sub(self.tally.total());
        let mut batch = Vec::new();
        while batch.len() < BATCH && left > 0 {
            let trace = Trace::new(self.options.seed, self.traces + batch.len() as u64);
            let lines = trace.text.iter().filter(|byte| **byte == b'\n').count();
            left = left.saturating_sub(lines as u64);
            batch.push(trace);
        }
        batch
    }
}

/// Compares a trace that was equal as a file, now given through a pipe, which may hand it over in
/// any pieces.
fn compare_input(program: &Path, trace: &Trace) -> io::Result<Option<String>> {
    let output = play_input(program, &trace.text)?;
    let Some(difference) = judge(&trace.text, &output.stdout, &mut Tally::default()) else {
        return Ok(told_ending(&output));
    };
    keep(trace, &output.stdout)?;
    let told = tell(trace, &difference) + "\n  on standard input; as a file it was equal";
    Ok(Some(told + &ending(&output)))
}

fn play_input(program: &Path, text: &[u8]) -> io::Result<Output> {
    let mut command = Command::new(program);
    let command = command.stdin(Stdio::piped()).stdout(Stdio::piped()).stderr(Stdio::piped());
    let mut child = command.spawn()?;
    let mut input = child.stdin.take().expect("the input is piped");
    thread::scope(|scope| {
        // A program need not read all of a trace that is too long.
        scope.spawn(move || input.write_all(text).ok());
        child.wait_with_output()
    })
}

/// Keeps a trace, with what the original answers and what the program wrote.
fn keep(trace: &Trace, wrote: &[u8]) -> io::Result<()> {
    let path = repository().join(KEPT).join(&trace.name);
    let answers: String = play(&trace.text).map(|answer| answer.text + "\n").collect();
    fs::write(&path, &trace.text)?;
    fs::write(path.with_extension("original"), answers)?;
    fs::write(path.with_extension("replay"), wrote)
}

fn tell(trace: &Trace, difference: &Difference) -> String {
    let Difference { line, asked, original, other } = difference;
    let name = &trace.name;
    format!(
        "difference in {KEPT}/{name}, line {line}: {asked}\n  original: {original}\n  replay:   {other}"
    )
}

/// Where the two sessions of a stride pair part. Both programs wrote the same text, so that it is
/// told of both.
fn parted(trace: &Trace, strides: &Strides) -> Option<String> {
    let answers: Vec<Answer> = play(&trace.text).collect();
    let (line, whole, cut) = strides.parted(&answers)?;
    let name = &trace.name;
    Some(format!(
        "strides part in {KEPT}/{name}, line {line}\n  whole: {whole}\n  in pieces: {cut}"
    ))
}

fn told_ending(output: &Output) -> Option<String> {
    (!output.status.success()).then(|| "equal answers".to_string() + &ending(output))
}

/// How the program ended, where that was not well.
fn ending(output: &Output) -> String {
    if output.status.success() {
        return String::new();
    }
    let said = String::from_utf8_lossy(&output.stderr);
    format!("\nthe program ended with {}\n{said}", output.status).trim_end().to_string()
}
