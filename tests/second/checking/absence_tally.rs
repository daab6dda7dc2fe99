//! Counts the records of a run in which numbers are not given: in every way that
//! there is, in both directions and through every op.

use std::collections::{BTreeMap, BTreeSet};

use crate::asking::probe::{Call, Op, Request};
use crate::asking::values::{sent_number, DIGITS_OF_A_VALUE};
use crate::asking::writer_script::{Misfit, Step};
use crate::checking::absence_demands::{demanded, letter, READING, WRITING};
use crate::checking::absence_sights::{kind_behind, RefusedRecord, Sight};
use crate::checking::judged_records::{calls_of, refusal_in, verdict_of_all};
use crate::checking::part_claims::bytes_before_the_end;
use crate::checking::script_sights::code;
use crate::making::absences::{self, all_pairs, pair_given, pair_in, Holding, Pair};
use crate::paper::answers::{Answer, AnswerLine, Verdict};
use crate::paper::layout_table as table;
use crate::paper::lines::{LINE_BYTES, RECORD_BYTES};
use crate::paper::numbers::NON_DIGIT;
use crate::paper::parts::PartCall;
use crate::paper::places::{DIRECTION, SEGMENT, TYPE};
use crate::paper::record_kinds::{Direction, RecordKind, Subject, DIRECTIONS};
use crate::paper::records::Values;
use crate::paper::writer_calls::{CallKind, WriterCall};

/// An A that was accepted: the op and the direction by their codes.
type Met = (char, char, Pair);

pub struct AbsenceTally {
    met: BTreeMap<Met, usize>,
    /// What is demanded and no request has shown so far.
    unseen: BTreeSet<Sight>,
}

impl Default for AbsenceTally {
    fn default() -> AbsenceTally {
        AbsenceTally {
            met: BTreeMap::new(),
            unseen: demanded().into_iter().collect(),
        }
    }
}

impl AbsenceTally {
    pub fn count(&mut self, request: &Request, answer: &Answer) {
        match request.call() {
            Some(Call::ReadRecord { subject }) => self.count_read(subject, request, answer),
            Some(Call::WriteRecord { subject, .. }) => self.count_written(subject, request, answer),
            Some(Call::CheckFile) => self.count_file(&request.payload, answer),
            Some(Call::CheckLines) => {
                self.count_lines(&request.line_calls().unwrap_or_default(), answer);
            }
            Some(Call::CheckParts) => {
                self.count_parts(&request.part_calls().unwrap_or_default(), answer);
            }
            Some(Call::WriteFile { .. }) => self.count_script(&request.script(), answer),
            _ => {}
        }
    }

    fn meet(&mut self, op: Op, direction: char, pair: Pair) {
        let met = (letter(op), direction, pair);
        *self.met.entry(met).or_default() += 1;
    }

    fn see(&mut self, sights: impl IntoIterator<Item = Sight>) {
        for sight in sights {
            self.unseen.remove(&sight);
        }
    }

    fn see_refused(&mut self, record: RefusedRecord) {
        // Looking costs time.
        if !self.unseen.is_empty() {
            self.see(record.sights());
        }
    }

    fn count_read(&mut self, subject: Subject, request: &Request, answer: &Answer) {
        let (op, direction) = (Op::ReadRecord, char::from(subject.direction.code()));
        match refusal_in(answer.lines[0].verdict) {
            Ok(None) if subject.kind == RecordKind::A => {
                self.meet(op, direction, pair_in(&request.payload));
            }
            Ok(Some(refusal)) => self.see_refused(RefusedRecord {
                op: letter(op),
                direction,
                kind: subject.kind,
                bytes: &request.payload,
                refusal,
            }),
            _ => {}
        }
    }

    fn count_written(&mut self, subject: Subject, request: &Request, answer: &Answer) {
        let op = Op::WriteRecord;
        let direction = char::from(subject.direction.code());
        let values = Values::from_payload(subject.kind, &request.payload);
        match (values, answer.lines[0].verdict) {
            (Some(values), verdict) if subject.kind == RecordKind::A => {
                self.count_given(op, direction, &values, verdict);
            }
            (None, _) => self.see(no_numbers(subject.kind, &request.payload)),
            _ => {}
        }
    }

    /// An A that a caller gives.
    fn count_given(&mut self, op: Op, direction: char, values: &Values, verdict: Verdict) {
        match verdict {
            Verdict::Accepted => self.meet(op, direction, pair_given(values)),
            Verdict::Refused {
                number: NON_DIGIT,
                place,
                ..
            } => {
                let mut fields = absences::fields().into_iter();
                let named = fields.find(|(_, field)| field.first == place);
                let number = named.and_then(|(index, _)| values.numbers[index]);
                self.see(number.map(|number| Sight::TooWide {
                    op: letter(op),
                    direction,
                    place,
                    number,
                }));
            }
            Verdict::Refused { .. } => {}
        }
    }

    fn count_file(&mut self, file: &[u8], answer: &Answer) {
        let lines: Vec<&[u8]> = file.chunks(LINE_BYTES).collect();
        let verdict = answer.lines[0].verdict;
        let accepted = match verdict {
            Verdict::Accepted => lines.len(),
            Verdict::Refused { line, .. } => line as usize - 1,
        };
        self.count_cut(Op::CheckFile, lines.split_at(accepted), verdict);
    }

    /// A file of which the first lines were accepted.
    fn count_cut(&mut self, op: Op, (accepted, rest): (&[&[u8]], &[&[u8]]), verdict: Verdict) {
        self.count_accepted(op, accepted);
        if let Some(refused) = rest.first() {
            self.count_refused(op, accepted, refused, verdict);
        }
    }

    /// The last answer is that of the end.
    fn count_lines(&mut self, calls: &[&[u8]], answer: &Answer) {
        let mut accepted = Vec::new();
        for (call, said) in calls.iter().zip(&answer.lines) {
            if said.verdict == Verdict::Accepted {
                accepted.push(*call);
            } else {
                self.count_refused(Op::CheckLines, &accepted, call, said.verdict);
            }
        }
        self.count_accepted(Op::CheckLines, &accepted);
    }

    /// Behind a refusal or an end no line is accepted any more.
    fn count_parts(&mut self, calls: &[PartCall], answer: &Answer) {
        let bytes = bytes_before_the_end(calls);
        let lines: Vec<&[u8]> = bytes.chunks(LINE_BYTES).collect();
        let accepted = answer.accepted_lines.unwrap_or(0) as usize;
        let verdict = verdict_of_all(answer);
        self.count_cut(Op::CheckParts, lines.split_at(accepted), verdict);
    }

    /// The first of these lines is a file header.
    fn count_accepted(&mut self, op: Op, lines: &[&[u8]]) {
        let credits = lines.iter().filter(|line| is_a(line));
        let pairs: Vec<Pair> = credits.map(|line| pair_in(line)).collect();
        for pair in pairs {
            self.meet(op, direction_of(lines), pair);
        }
    }

    /// A line that came behind these.
    fn count_refused(&mut self, op: Op, before: &[&[u8]], line: &[u8], verdict: Verdict) {
        let refusal = match refusal_in(verdict) {
            Ok(Some(refusal)) => refusal,
            _ => return,
        };
        // A place is named in a whole line only.
        if let Some(kind) = kind_behind(before, line) {
            self.see_refused(RefusedRecord {
                op: letter(op),
                direction: direction_of(before),
                kind,
                bytes: line,
                refusal,
            });
        }
    }

    fn count_script(&mut self, script: &Result<Vec<Step>, Misfit>, answer: &Answer) {
        match script {
            Ok(script) => self.count_calls(calls_of(script).zip(&answer.lines)),
            Err(Misfit::NoNumber {
                kind,
                index,
                reason,
            }) => self.see([Sight::NoNumber {
                op: letter(Op::WriteFile),
                kind: *kind,
                index: *index,
                reason: *reason,
            }]),
            Err(_) => {}
        }
    }

    fn count_calls<'a>(&mut self, calls: impl Iterator<Item = (&'a WriterCall, &'a AnswerLine)>) {
        let mut direction = Direction::Remittance;
        for (call, said) in calls {
            let first = &call.records[0];
            let accepted = said.verdict == Verdict::Accepted;
            match call.kind {
                CallKind::OpenFile if accepted => direction = given_direction(&first.values),
                CallKind::Payment if first.kind == RecordKind::A => {
                    let direction = char::from(direction.code());
                    self.count_given(Op::WriteFile, direction, &first.values, said.verdict);
                }
                _ => {}
            }
        }
    }

    fn times(&self, op: Op, direction: Direction, pair: Pair) -> usize {
        let met = (letter(op), char::from(direction.code()), pair);
        self.met.get(&met).copied().unwrap_or(0)
    }

    pub fn gaps(&self) -> Vec<String> {
        let mut gaps = Vec::new();
        for op in READING.into_iter().chain(WRITING) {
            for direction in DIRECTIONS {
                for pair in all_pairs() {
                    if self.times(op, direction, pair) == 0 {
                        let (op, direction) = (letter(op), char::from(direction.code()));
                        gaps.push(format!(
                            "op {op} met no A of direction {direction} with {pair:?}"
                        ));
                    }
                }
            }
        }
        let unseen = self.unseen.iter();
        gaps.extend(unseen.map(|sight| format!("no request showed {sight:?}")));
        gaps
    }

    /// How many accepted A had both numbers, one or none.
    pub fn summary(&self) -> String {
        let mut lines = Vec::new();
        for direction in DIRECTIONS {
            for given in [[true, true], [true, false], [false, true], [false, false]] {
                let ops = READING.into_iter().chain(WRITING).map(|op| {
                    let pairs = all_pairs().into_iter();
                    let pairs = pairs.filter(|pair| are_given(*pair) == given);
                    let times = pairs.map(|pair| self.times(op, direction, pair));
                    format!("{} {}", letter(op), times.sum::<usize>())
                });
                let ops: Vec<String> = ops.collect();
                let (direction, named) = (name(direction), named(given));
                lines.push(format!("A of {direction} with {named}: {}", ops.join(", ")));
            }
        }
        let all = demanded().len();
        let seen = all - self.unseen.len();
        lines.push(format!(
            "numbers that are none or not given: {seen} of {all} sorts"
        ));
        lines.join("\n")
    }
}

fn are_given(pair: Pair) -> [bool; 2] {
    pair.map(|holding| holding != Holding::NotGiven)
}

fn named(given: [bool; 2]) -> &'static str {
    match given {
        [true, true] => "both numbers",
        [true, false] => "the first number only",
        [false, true] => "the second number only",
        [false, false] => "neither number",
    }
}

fn name(direction: Direction) -> &'static str {
    match direction {
        Direction::Remittance => "remittances",
        Direction::Return => "returns",
    }
}

fn is_a(line: &[u8]) -> bool {
    TYPE.of(line) == b"3" && SEGMENT.of(line) == b"A"
}

fn direction_of(lines: &[&[u8]]) -> char {
    let header = lines.first().map(|header| DIRECTION.of(header));
    header.map_or(' ', |code| char::from(code[0]))
}

fn given_direction(values: &Values) -> Direction {
    let fields = table::fields(RecordKind::FileHeader).into_iter();
    let mut given = fields.zip(&values.numbers);
    let given = given.find(|(field, _)| field.first == DIRECTION.first);
    match given {
        Some((_, Some(2))) => Direction::Return,
        _ => Direction::Remittance,
    }
}

/// The numbers of a payload for which something else was sent; nothing for a
/// payload of another length, which has no numbers.
fn no_numbers(kind: RecordKind, payload: &[u8]) -> Vec<Sight> {
    let digits = table::fields(kind).len() * DIGITS_OF_A_VALUE;
    if payload.len() != digits + RECORD_BYTES {
        return Vec::new();
    }
    let sent = payload[..digits].chunks(DIGITS_OF_A_VALUE).enumerate();
    let none = sent.filter_map(|(index, sent)| {
        let reason = sent_number(kind, index, sent).err()?;
        Some(Sight::NoNumber {
            op: letter(Op::WriteRecord),
            kind: code(kind),
            index,
            reason,
        })
    });
    none.collect()
}
