//! Request 1 of document 02: a checker that takes a file in parts of any length
//! and keeps the unfinished line itself. What it says and knows follows from the
//! bytes given so far, however they were cut.

use super::answers::{AnswerLine, Verdict};
use super::line_checker::LineChecker;
use super::line_rules::LineRules;
use super::lines::LINE_BYTES;
use super::numbers::OUT_OF_TURN;
use super::Paper;

/// What every call says behind an accepted end.
pub const OVER: Verdict = Verdict::Refused {
    number: OUT_OF_TURN,
    line: 0,
    place: 0,
};

#[derive(Clone, Copy)]
pub enum PartCall<'a> {
    Part(&'a [u8]),
    End,
}

pub struct PartChecker<Rules = Paper> {
    pub lines: LineChecker<Rules>,
    /// All bytes so far; the accepted lines are the first of them.
    pub given: Vec<u8>,
    /// What every call says from now on: the refusal of a line or of an end, or
    /// that the file is over.
    pub kept: Option<Verdict>,
}

impl<Rules: LineRules> PartChecker<Rules> {
    pub fn by(rules: Rules) -> PartChecker<Rules> {
        PartChecker {
            lines: LineChecker::by(rules),
            given: Vec::new(),
            kept: None,
        }
    }

    pub fn call(&mut self, call: PartCall) -> AnswerLine {
        match (self.kept, call) {
            (Some(kept), _) => AnswerLine::plain(kept),
            (None, PartCall::Part(bytes)) => AnswerLine::plain(self.part(bytes)),
            (None, PartCall::End) => self.end(),
        }
    }

    fn part(&mut self, bytes: &[u8]) -> Verdict {
        self.given.extend_from_slice(bytes);
        while let Some(due) = self.due() {
            let verdict = self.lines.line(&due);
            if verdict != Verdict::Accepted {
                self.kept = Some(verdict);
                return verdict;
            }
        }
        Verdict::Accepted
    }

    /// A line is judged once its last byte has come, and not looked into before;
    /// behind type 9 the first byte is one too many, whatever it is.
    fn due(&self) -> Option<Vec<u8>> {
        let awaited = if self.lines.state.has_ended() {
            1
        } else {
            LINE_BYTES
        };
        self.ahead().get(..awaited).map(<[u8]>::to_vec)
    }

    /// What stands behind the accepted lines.
    pub fn ahead(&self) -> &[u8] {
        &self.given[self.accepted_lines() as usize * LINE_BYTES..]
    }

    pub fn accepted_lines(&self) -> u64 {
        self.lines.state.accepted_lines
    }

    /// A refused end is a refusal like any other.
    fn end(&mut self) -> AnswerLine {
        let answer = self.lines.end(self.ahead().len());
        self.kept = Some(match answer.verdict {
            Verdict::Accepted => OVER,
            refusal => refusal,
        });
        answer
    }
}
