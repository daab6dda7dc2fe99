//! Counts how often each answer was seen, so that an answer no case led to is
//! noticed.

use std::collections::BTreeMap;
use std::fmt;

use crate::asking::probe::{Call, Op, Request};
use crate::asking::replies::MALFORMED;
use crate::checking::absence_tally::AbsenceTally;
use crate::checking::collection_tally::CollectionTally;
use crate::checking::due_tally::DueTally;
use crate::checking::movement_tally::MovementTally;
use crate::checking::part_tally::PartTally;
use crate::checking::registration_tally::RegistrationTally;
use crate::checking::script_tally::ScriptTally;
use crate::paper::answers::{Answer, Verdict};
use crate::paper::numbers::{WRONG_BLOCK_CHECK, WRONG_FIELD_CHECK};

/// One column for each op, and one for all that name no op.
const COLUMNS: [&str; 11] = ["B", "D", "C", "W", "F", "L", "P", "T", "b", "d", "other"];
const NO_OP: &str = COLUMNS[10];
const REQUESTS: &str = "requests";
const ACCEPTED: &str = "OK";
const MALFORMED_REQUEST: &str = "malformed";
/// The numbers whose place says which of several checks is wrong.
const OF_SEVERAL_CHECKS: [u32; 2] = [WRONG_FIELD_CHECK, WRONG_BLOCK_CHECK];

/// Each answer with the columns in which it can occur. Reading a file can give
/// every number from 1 to 23, 26, 52, 53 and 55, in a whole file, in single-line
/// calls and in parts; of a record alone those from 26 on are never said.
/// No request is long enough for the writer to give 23 or 25.
const ANSWERS: [(&str, &[&str]); 42] = [
    (
        ACCEPTED,
        &["B", "D", "C", "W", "F", "L", "P", "T", "b", "d"],
    ),
    ("1", &["C", "F", "L", "T"]),
    ("2", &["F", "L", "T"]),
    ("3", &["F", "L", "T"]),
    ("4", &["C", "W", "F", "L", "P", "T"]),
    ("5", &["F", "L", "T"]),
    ("6", &["C", "F", "L", "T"]),
    ("7", &["F", "L", "T"]),
    ("8", &["C", "W", "F", "L", "P", "T"]),
    ("9", &["F", "L", "T"]),
    ("10", &["F", "L", "T"]),
    ("11", &["C", "F", "L", "P", "T"]),
    ("12", &["C", "W", "F", "L", "P", "T"]),
    ("13", &["C", "W", "F", "L", "P", "T"]),
    ("14", &["C", "W", "F", "L", "P", "T"]),
    ("15", &["C", "W", "F", "L", "P", "T"]),
    ("16", &["F", "L", "P", "T"]),
    ("17", &["F", "L", "P", "T"]),
    ("18", &["F", "L", "P", "T"]),
    ("19", &["F", "L", "P", "T"]),
    ("20", &["F", "L", "P", "T"]),
    ("21", &["F", "L", "T"]),
    ("22", &["F", "L", "T"]),
    ("23", &["F", "L", "T"]),
    ("26", &["F", "L", "P", "T"]),
    ("40", &["B", "D", "b", "d"]),
    ("41", &["B", "D", "b", "d"]),
    ("42 at 10", &["D"]),
    ("42 at 21", &["D"]),
    ("42 at 32", &["D"]),
    ("43", &["B", "D"]),
    ("44", &["B", "D"]),
    ("50", &["B", "D", "W", "P", "b", "d"]),
    ("51", &["P", "T"]),
    ("52", &["F", "L", "P", "T", "b", "d"]),
    ("53", &["F", "L", "P", "T", "b", "d"]),
    ("54 at 12", &["d"]),
    ("54 at 24", &["d"]),
    ("54 at 36", &["d"]),
    ("54 at 48", &["d"]),
    ("55", &["F", "L", "P", "T", "b", "d"]),
    (MALFORMED_REQUEST, &COLUMNS),
];

#[derive(Default)]
pub struct Tally {
    /// By answer and column. A request of several calls has as many answers.
    seen: BTreeMap<(String, &'static str), usize>,
    requests: BTreeMap<&'static str, usize>,
    dues: DueTally,
    movements: MovementTally,
    scripts: ScriptTally,
    parts: PartTally,
    absences: AbsenceTally,
    registrations: RegistrationTally,
    collections: CollectionTally,
}

impl Tally {
    pub fn count(&mut self, request: &Request, answer: &Answer) {
        let column = column(request);
        *self.requests.entry(column).or_default() += 1;
        for line in &answer.lines {
            let key = (answer_name(line.verdict), column);
            *self.seen.entry(key).or_default() += 1;
        }
        self.absences.count(request, answer);
        self.registrations.count(request, answer);
        self.collections.count(request, answer);
        match request.call() {
            Some(Call::CheckFile) => {
                self.dues.count(&request.payload, answer);
                self.movements.count_file(&request.payload, answer);
            }
            Some(Call::CheckLines) => {
                let calls = request.line_calls().unwrap_or_default();
                self.movements.count_lines(&calls, answer);
            }
            Some(Call::WriteFile { room }) => self.scripts.count(&request.script(), room),
            Some(Call::CheckParts) => self.parts.count(&request.part_calls(), answer),
            _ => {}
        }
    }

    pub fn requests(&self) -> usize {
        self.requests.values().sum()
    }

    fn times(&self, answer: &str, column: &'static str) -> usize {
        let key = (answer.to_string(), column);
        self.seen.get(&key).copied().unwrap_or(0)
    }

    /// Answers that can occur and were never seen, and seen ones the table lacks.
    pub fn gaps(&self) -> Vec<String> {
        let mut gaps = Vec::new();
        let mut in_table = 0;
        for (answer, columns) in ANSWERS {
            for column in columns {
                let times = self.times(answer, column);
                in_table += times;
                if times == 0 {
                    gaps.push(format!("answer {answer} was never seen for op {column}"));
                }
            }
        }
        if in_table != self.seen.values().sum() {
            gaps.push("some answers have no place in the table".to_string());
        }
        gaps.extend(self.dues.gaps());
        gaps.extend(self.movements.gaps());
        gaps.extend(self.scripts.gaps());
        gaps.extend(self.parts.gaps());
        gaps.extend(self.absences.gaps());
        gaps.extend(self.registrations.gaps());
        gaps.extend(self.collections.gaps());
        gaps
    }
}

fn answer_name(verdict: Verdict) -> String {
    match verdict {
        Verdict::Accepted => ACCEPTED.to_string(),
        Verdict::Refused {
            number: MALFORMED, ..
        } => MALFORMED_REQUEST.to_string(),
        Verdict::Refused { number, place, .. } if OF_SEVERAL_CHECKS.contains(&number) => {
            format!("{number} at {place}")
        }
        Verdict::Refused { number, .. } => number.to_string(),
    }
}

fn column(request: &Request) -> &'static str {
    let op = Op::from_code(request.op_code());
    let mut columns = COLUMNS.into_iter();
    let named = op.and_then(|op| columns.find(|column| column.as_bytes() == [op.code()]));
    named.unwrap_or(NO_OP)
}

impl fmt::Display for Tally {
    fn fmt(&self, out: &mut fmt::Formatter) -> fmt::Result {
        write!(out, "{:<10}", "answer")?;
        for column in COLUMNS {
            write!(out, "{column:>8}")?;
        }
        for (answer, columns) in ANSWERS {
            write!(out, "\n{answer:<10}")?;
            for column in COLUMNS {
                let can_occur = columns.contains(&column);
                let times = if can_occur {
                    self.times(answer, column).to_string()
                } else {
                    "-".to_string()
                };
                write!(out, "{times:>8}")?;
            }
        }
        write!(out, "\n{REQUESTS:<10}")?;
        for column in COLUMNS {
            let requests = self.requests.get(column).copied().unwrap_or(0);
            write!(out, "{requests:>8}")?;
        }
        let summaries = [
            self.dues.summary(),
            self.movements.summary(),
            self.scripts.summary(),
            self.parts.summary(),
            self.absences.summary(),
            self.registrations.summary(),
            self.collections.summary(),
        ];
        write!(out, "\n{}", summaries.join("\n"))
    }
}
