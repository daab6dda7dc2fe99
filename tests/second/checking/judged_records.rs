//! The records that the requests of a run give, each with what was said of it.

use std::borrow::Cow;

use crate::asking::probe::{Call, Op, Request};
use crate::asking::writer_script::Step;
use crate::checking::part_claims::bytes_before_the_end;
use crate::paper::answers::{Answer, AnswerLine, Verdict};
use crate::paper::lines::LINE_BYTES;
use crate::paper::places::{DIRECTION, SEGMENT, TYPE};
use crate::paper::record_kinds::{Direction, RecordKind, Subject};
use crate::paper::record_rules::Refusal;
use crate::paper::records::{Records, Values};
use crate::paper::writer_calls::WriterCall;
use crate::paper::Paper;

/// A record that was taken, or refused at one of its places.
pub struct Judged<'a> {
    pub op: Op,
    pub subject: Subject,
    /// A line has its line end too.
    pub bytes: Cow<'a, [u8]>,
    pub refusal: Option<Refusal>,
}

/// Records of which nothing is said are left out, and so are those refused for
/// what is no place of them.
pub fn judged_records<'a>(request: &'a Request, answer: &Answer) -> Vec<Judged<'a>> {
    match request.call() {
        Some(Call::ReadRecord { subject }) => {
            let record = Cow::from(request.payload.as_slice());
            of_one_record(Op::ReadRecord, subject, record, answer)
        }
        Some(Call::WriteRecord { subject, .. }) => {
            match Values::from_payload(subject.kind, &request.payload) {
                Some(values) => {
                    let record = Cow::from(Paper.draft(subject.kind, &values).bytes);
                    of_one_record(Op::WriteRecord, subject, record, answer)
                }
                None => Vec::new(),
            }
        }
        Some(Call::CheckFile) => {
            let verdict = answer.lines[0].verdict;
            of_lines(Op::CheckFile, file_lines(&request.payload, verdict))
        }
        Some(Call::CheckLines) => {
            let calls = request.line_calls().unwrap_or_default().into_iter();
            let said = answer.lines.iter().map(|line| line.verdict);
            of_lines(Op::CheckLines, calls.zip(said).collect())
        }
        Some(Call::CheckParts) => of_parts(request, answer),
        Some(Call::WriteFile { .. }) => of_script(request, answer),
        _ => Vec::new(),
    }
}

fn of_one_record<'a>(
    op: Op,
    subject: Subject,
    bytes: Cow<'a, [u8]>,
    answer: &Answer,
) -> Vec<Judged<'a>> {
    let refusal = match refusal_in(answer.lines[0].verdict) {
        Ok(refusal) => refusal,
        Err(NoPlace) => return Vec::new(),
    };
    vec![Judged {
        op,
        subject,
        bytes,
        refusal,
    }]
}

/// What is refused is the call or the length, and no place.
pub struct NoPlace;

pub fn refusal_in(verdict: Verdict) -> Result<Option<Refusal>, NoPlace> {
    match verdict {
        Verdict::Accepted => Ok(None),
        Verdict::Refused { place: 0, .. } => Err(NoPlace),
        Verdict::Refused { number, place, .. } => Ok(Some((number, place))),
    }
}

/// The lines of a file up to the one that was refused.
fn file_lines(file: &[u8], verdict: Verdict) -> Vec<(&[u8], Verdict)> {
    let lines = file.chunks(LINE_BYTES);
    match verdict {
        Verdict::Accepted => lines.map(|line| (line, Verdict::Accepted)).collect(),
        Verdict::Refused { line: refused, .. } => {
            let numbered = (1..=refused).zip(lines);
            let said = numbered.map(|(number, line)| {
                let is_refused = number == refused;
                (
                    line,
                    if is_refused {
                        verdict
                    } else {
                        Verdict::Accepted
                    },
                )
            });
            said.collect()
        }
    }
}

/// Behind a refusal or an end no line is judged any more.
fn of_parts<'a>(request: &'a Request, answer: &Answer) -> Vec<Judged<'a>> {
    let calls = request.part_calls().unwrap_or_default();
    let bytes = bytes_before_the_end(&calls);
    let lines = file_lines(&bytes, verdict_of_all(answer));
    let judged = of_lines(Op::CheckParts, lines).into_iter();
    let owned = judged.map(|judged| Judged {
        bytes: Cow::from(judged.bytes.into_owned()),
        ..judged
    });
    owned.collect()
}

/// The first refusal, if any call was refused.
pub fn verdict_of_all(answer: &Answer) -> Verdict {
    let mut verdicts = answer.lines.iter().map(|line| line.verdict);
    let refusal = verdicts.find(|verdict| *verdict != Verdict::Accepted);
    refusal.unwrap_or(Verdict::Accepted)
}

/// The lines of one file in the order in which they came.
fn of_lines<'a>(op: Op, lines: Vec<(&'a [u8], Verdict)>) -> Vec<Judged<'a>> {
    let mut judged = Vec::new();
    let mut direction = Direction::Remittance;
    let mut last = None;
    for (line, verdict) in lines {
        let refusal = match refusal_in(verdict) {
            Ok(refusal) if line.len() == LINE_BYTES => refusal,
            _ => continue,
        };
        if let Some(kind) = kind_of(line, || last == Some(RecordKind::J)) {
            if kind == RecordKind::FileHeader {
                direction = direction_in(line);
            }
            judged.push(Judged {
                op,
                subject: Subject { kind, direction },
                bytes: Cow::from(line),
                refusal,
            });
            last = if refusal.is_none() { Some(kind) } else { last };
        }
    }
    judged
}

/// What a line is read as, as far as its type and its segment say it; a J is the
/// second record of a boleto that is begun.
pub fn kind_of(line: &[u8], is_begun: impl Fn() -> bool) -> Option<RecordKind> {
    match (TYPE.of(line), SEGMENT.of(line)) {
        (b"0", _) => Some(RecordKind::FileHeader),
        (b"1", _) => Some(RecordKind::BatchHeader),
        (b"5", _) => Some(RecordKind::BatchTrailer),
        (b"9", _) => Some(RecordKind::FileTrailer),
        (b"3", b"A") => Some(RecordKind::A),
        (b"3", b"B") => Some(RecordKind::B),
        (b"3", b"O") => Some(RecordKind::O),
        (b"3", b"Z") => Some(RecordKind::Z),
        (b"3", b"J") if is_begun() => Some(RecordKind::J52),
        (b"3", b"J") => Some(RecordKind::J),
        _ => None,
    }
}

fn direction_in(file_header: &[u8]) -> Direction {
    if DIRECTION.of(file_header) == [Direction::Return.code()] {
        Direction::Return
    } else {
        Direction::Remittance
    }
}

/// The steps of a script that are calls.
pub fn calls_of(script: &[Step]) -> impl Iterator<Item = &WriterCall> {
    script.iter().filter_map(|step| match step {
        Step::Call(call) => Some(call),
        Step::Lend(_) | Step::Overwrite(_) => None,
    })
}

fn of_script(request: &Request, answer: &Answer) -> Vec<Judged<'static>> {
    let script = request.script().unwrap_or_default();
    let mut judged = Vec::new();
    let mut direction = Direction::Remittance;
    let mut written = 0;
    for (call, said) in calls_of(&script).zip(&answer.lines) {
        for (bytes, kind, refusal) in of_call(call, said, written) {
            if kind == RecordKind::FileHeader {
                direction = direction_in(&bytes);
            }
            judged.push(Judged {
                op: Op::WriteFile,
                subject: Subject { kind, direction },
                bytes: Cow::from(bytes),
                refusal,
            });
        }
        if said.verdict == Verdict::Accepted {
            written += call.records.len();
        }
    }
    judged
}

/// All records of an accepted call, or the one that is refused.
fn of_call(
    call: &WriterCall,
    said: &AnswerLine,
    written: usize,
) -> Vec<(Vec<u8>, RecordKind, Option<Refusal>)> {
    let refused = match said.verdict {
        Verdict::Accepted => None,
        Verdict::Refused { line, .. } => Some(line as usize - 1),
    };
    let refusal = match refusal_in(said.verdict) {
        Ok(refusal) => refusal,
        Err(NoPlace) => return Vec::new(),
    };
    let records = call.records.iter().zip(call.kinds()).enumerate();
    let meant = records.filter(|(at, _)| refused.map_or(true, |refused| written + at == refused));
    let judged = meant.map(|(_, (record, kind))| {
        let draft = Paper.draft(kind, &record.values);
        (draft.bytes, kind, refusal)
    });
    judged.collect()
}
