//! What document 01 has a call answer: `OK`, with totals or with the numbers of
//! a record, or `NO number line place`; and the memory that the call was lent.

use std::fmt;
use std::ops::Range;

/// How the line of an acceptance begins.
pub const ACCEPTED: &str = "OK";

#[derive(Clone, Copy, PartialEq, Eq)]
pub enum Verdict {
    Accepted,
    Refused {
        number: u32,
        line: u64,
        place: usize,
    },
}

impl fmt::Display for Verdict {
    fn fmt(&self, out: &mut fmt::Formatter) -> fmt::Result {
        match self {
            Verdict::Accepted => write!(out, "{ACCEPTED}"),
            Verdict::Refused {
                number,
                line,
                place,
            } => write!(out, "NO {number} {line} {place}"),
        }
    }
}

/// What is said of a field that was read.
#[derive(Clone, Copy, PartialEq, Eq)]
pub enum FieldValue {
    Number(u64),
    /// Which is different from zero.
    NotGiven,
    /// The field is read as bytes.
    Bytes,
}

impl FieldValue {
    /// Nothing for a number that is not given.
    pub fn of_number(number: Option<u64>) -> FieldValue {
        number.map_or(FieldValue::NotGiven, FieldValue::Number)
    }
}

impl fmt::Display for FieldValue {
    fn fmt(&self, out: &mut fmt::Formatter) -> fmt::Result {
        match self {
            FieldValue::Number(number) => write!(out, "{number}"),
            FieldValue::NotGiven => write!(out, "_"),
            FieldValue::Bytes => write!(out, "-"),
        }
    }
}

/// One line of a reply.
#[derive(Clone, PartialEq, Eq)]
pub struct AnswerLine {
    pub verdict: Verdict,
    /// For an accepted file its six numbers.
    pub numbers: Vec<u64>,
    /// For a record that was read each of its fields.
    pub fields: Vec<FieldValue>,
}

impl AnswerLine {
    pub fn plain(verdict: Verdict) -> AnswerLine {
        AnswerLine {
            verdict,
            numbers: Vec::new(),
            fields: Vec::new(),
        }
    }
}

impl fmt::Display for AnswerLine {
    fn fmt(&self, out: &mut fmt::Formatter) -> fmt::Result {
        write!(out, "{}", self.verdict)?;
        for number in &self.numbers {
            write!(out, " {number}")?;
        }
        for field in &self.fields {
            write!(out, " {field}")?;
        }
        Ok(())
    }
}

/// What document 01 demands of a call.
pub struct Answer {
    /// One line, but for a sequence of calls.
    pub lines: Vec<AnswerLine>,
    /// Of a file in parts, how many of its lines were accepted.
    pub accepted_lines: Option<u64>,
    /// The lent memory after the call, or the text of the record that was read.
    pub memory: Option<Vec<u8>>,
    /// Parts of the memory that may hold anything.
    pub unbound: Vec<Range<usize>>,
}

impl Answer {
    pub fn of_lines(lines: Vec<AnswerLine>) -> Answer {
        Answer {
            lines,
            accepted_lines: None,
            memory: None,
            unbound: Vec::new(),
        }
    }

    pub fn of_parts(lines: Vec<AnswerLine>, accepted_lines: u64) -> Answer {
        Answer {
            accepted_lines: Some(accepted_lines),
            ..Answer::of_lines(lines)
        }
    }

    pub fn without_memory(verdict: Verdict) -> Answer {
        Answer::of_lines(vec![AnswerLine::plain(verdict)])
    }

    pub fn with_memory(verdict: Verdict, memory: Vec<u8>) -> Answer {
        Answer {
            memory: Some(memory),
            ..Answer::without_memory(verdict)
        }
    }

    /// Whether the call, or the last of several, was accepted.
    pub fn accepts(&self) -> bool {
        let last = self.lines.last();
        last.map(|line| line.verdict) == Some(Verdict::Accepted)
    }
}
