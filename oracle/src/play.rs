//! A whole trace, from a fresh start to its end or its first fault.

use crate::machine::Machine;
use crate::parse::{lines, parse, Fault, Lines, LIMIT};

/// The answer to a trace over the limit.
pub const TOO_LONG: &str = "trace too long";

/// One answer of a run.
pub struct Answer {
    /// The number of the line that asked, from 1; 0 for the trace as a whole.
    pub line: usize,
    /// The operation's name, or what is wrong.
    pub asked: &'static str,
    /// What a run writes, without the last line's end.
    pub text: String,
}

/// A run: gives the answers one by one.
pub struct Play<'a> {
    machine: Machine,
    lines: Lines<'a>,
    line: usize,
    too_long: bool,
}

pub fn play(trace: &[u8]) -> Play<'_> {
    let too_long = trace.len() > LIMIT;
    Play {
        machine: Machine::new(),
        lines: lines(if too_long { b"" } else { trace }),
        line: 0,
        too_long,
    }
}

impl Iterator for Play<'_> {
    type Item = Answer;

    fn next(&mut self) -> Option<Answer> {
        if std::mem::take(&mut self.too_long) {
            return Some(self.answer(TOO_LONG, TOO_LONG.into()));
        }
        loop {
            let line = self.lines.next()?;
            self.line += 1;
            match parse(line) {
                Ok(None) => {}
                Ok(Some(call)) => {
                    let text = call.operation.run(&mut self.machine, &call.operands);
                    return Some(self.answer(call.operation.name, text));
                }
                Err(fault) => return Some(self.end(fault)),
            }
        }
    }
}

impl Play<'_> {
    fn answer(&self, asked: &'static str, text: String) -> Answer {
        Answer { line: self.line, asked, text }
    }

    /// A fault's line is the run's last.
    fn end(&mut self, fault: Fault) -> Answer {
        self.lines = lines(b"");
        let words = fault.words();
        self.answer(words, format!("line {}: {words}", self.line))
    }
}

#[cfg(test)]
mod tests {
    use super::*;

    fn text(trace: &[u8]) -> String {
        let answers: Vec<String> = play(trace).map(|answer| answer.text).collect();
        answers.join("\n")
    }

    #[test]
    fn passed_over_lines_count_and_a_fault_ends_the_run() {
        let trace = b"# first\r\n\nset_now 5\ncount_now\n mfc0\ncount_now";
        let answers = "ok\n= 0000000000000005\nline 5: wrong number of operands";
        assert_eq!(text(trace), answers);
    }

    #[test]
    fn from_rs_refuses_all_but_four() {
        let trace = b"from_rs 0\nfrom_rs 1\nfrom_rs 4\nfrom_rs 5\nfrom_rs 2\nfrom_rs 20";
        let answers = "= 0000000000000000\n= 0000000000000001\n= 0000000000000002\n\
                       = 0000000000000003\nrefused 6\nrefused 6";
        assert_eq!(text(trace), answers);
    }

    /// A lookup says whether it is uncached, a translation whether it is cached.
    #[test]
    fn words_of_translations() {
        let trace = b"access\nsegment ffffffff80000004 0 0 0\nsegment 0 2 0 0\n\
                      segment 80000000 2 0 0\nmtc0 2 52\nwrite_entry 0\nlookup 5 0 0\n\
                      translate_via 5 0 0 2 0 0\nlookup 5 0 1\nlookup 1005 0 0\n\
                      translate_via 2000 0 0 2 0 0\ntranslate_via 80000000 0 0 2 0 0";
        let answers = "access 0000000000000000 0 1\ndirect 0000000000000004 1\nmapped\n\
                       address\nok\nok\nat 0000000000001005 1 0000000000000000\n\
                       at 0000000000001005 0 0000000000000000\nmodified\ninvalid\n\
                       refill\naddress";
        assert_eq!(text(trace), answers);
    }

    /// By the last entry; a direct segment by none; and two that match, by none either.
    #[test]
    fn entries_that_answered() {
        let trace = b"mtc0 2 56\nmtc0 a 4000\nwrite_entry 1f\nlookup 4000 0 1\n\
                      translate_via 4000 0 1 2 0 0\ntranslate_via ffffffff80004000 0 1 0 0 0\n\
                      translate_via 4000 0 1 0 0 1\nwrite_entry 3\nlookup 4000 0 1";
        let answers = "ok\nok\nok\nat 0000000000001000 1 000000000000001f\n\
                       at 0000000000001000 0 000000000000001f\n\
                       at 0000000000004000 1 0000000000000020\n\
                       at 0000000000004000 0 0000000000000020\nok\nrefill";
        assert_eq!(text(trace), answers);
    }

    #[test]
    fn entry_numbers_are_written_modulo_32() {
        let trace = b"dmtc0 a c000000000004007\nmtc0 2 57\nmtc0 3 8f\nwrite_entry 21\nentry ffe1";
        let answers = "ok\nok\nok\nok\n\
                       entry 0000000000000001 0000000000000000 0000000000004000 \
                       0000000000000007 1 0000000000000003 \
                       0000000000000001 0000000000000002 1 1 \
                       0000000000000002 0000000000000001 1 1";
        assert_eq!(text(trace), answers);
    }

    /// A store that misses, in a delay slot at 0, from a fresh start out of ERL; P8 and the return.
    #[test]
    fn words_of_exceptions() {
        let trace = b"eret\ndispatch a 1 0 0 1 2000\nmfc0 d\neret\nvector 2 1\nnmi 8\neret";
        let answers = "= 0000000000000000\n\
                       vector ffffffffbfc00200 0000000000000002\n= ffffffff8000000c\n\
                       = fffffffffffffffc\n= ffffffff80000180\n\
                       vector ffffffffbfc00000 0000000000000002\n= 0000000000000008";
        assert_eq!(text(trace), answers);
    }

    /// P12: a line that only its tag was stored to is at 12010 once it is written and flushed.
    #[test]
    fn words_of_caches() {
        let trace =
            b"d_miss_plan 10\nd_store_tag 1010 12c0\nd_load_tag 1010\nd_write 1010 2 abcd\n\
                      d_miss_plan 1010\nd_flush_index 1010 0 1\nd_flush_index 1010 0 1\n\
                      d_create_dirty_exclusive 1010\nd_miss_plan 1018\nd_line 101\nnew\nd_line 101";
        let bytes = "abcd0000000000000000000000000000";
        let answers = format!(
            "fill\nok\n= 00000000000012c0\nok\nevict 0000000000012010 {bytes}\n\
             evict 0000000000012010 {bytes}\nnone\nnone\nhit\n\
             line 0000000000000001 1 1 {bytes}\nok\n\
             line 0000000000000000 0 0 00000000000000000000000000000000"
        );
        assert_eq!(text(trace), answers);
        let trace = b"i_install fe4 0 1 2 3\ni_read_word fec\ni_read_word fff\ni_flush_hit 1fe0\n\
                      i_flush_hit fff";
        let answers = "ok\n= 0000000000000001\nrefused 3\nnone\nevict 0000000000000fe0 \
                       0000000000000000000000000000000100000000000000020000000000000003";
        assert_eq!(text(trace), answers);
    }

    #[test]
    fn the_limit() {
        let mut trace = b"timer_edge\n#".to_vec();
        trace.resize(LIMIT, b'x');
        assert_eq!(text(&trace), "= 0");
        trace.push(b'\n');
        assert_eq!(text(&trace), "trace too long");
    }
}
