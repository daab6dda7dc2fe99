//! The answers about whole files and about single-line calls.

use super::answers::{AnswerLine, Verdict};
use super::line_checker::LineChecker;
use super::lines::LINE_BYTES;
use super::Paper;

/// A whole file that may come in parts of any size. It is cut every 242 bytes,
/// never at a line feed, and read no further than its first fault.
pub struct FileReader {
    checker: LineChecker,
    begun: Vec<u8>,
    refusal: Option<Verdict>,
}

impl FileReader {
    pub fn at_start() -> FileReader {
        FileReader {
            checker: LineChecker::by(Paper),
            begun: Vec::new(),
            refusal: None,
        }
    }

    pub fn feed(&mut self, bytes: &[u8]) {
        for byte in bytes {
            if self.refusal.is_some() {
                return;
            }
            self.begun.push(*byte);
            if self.begun.len() == LINE_BYTES {
                let verdict = self.checker.line(&self.begun);
                self.refusal = (verdict != Verdict::Accepted).then_some(verdict);
                self.begun.clear();
            }
        }
    }

    pub fn end(&self) -> AnswerLine {
        match self.refusal {
            Some(refusal) => AnswerLine::plain(refusal),
            None => self.checker.end(self.begun.len()),
        }
    }
}

pub fn check_file(bytes: &[u8]) -> AnswerLine {
    let mut reader = FileReader::at_start();
    reader.feed(bytes);
    reader.end()
}

/// One line for each call, and one for the end declared behind them.
pub fn check_lines(calls: &[&[u8]]) -> Vec<AnswerLine> {
    let mut checker = LineChecker::by(Paper);
    let verdicts = calls.iter().map(|call| checker.line(call));
    let mut lines: Vec<AnswerLine> = verdicts.map(AnswerLine::plain).collect();
    lines.push(checker.end(0));
    lines
}
