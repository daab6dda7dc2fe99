//! What document 01 demands of a request.

use crate::asking::probe::{untouched, Call, Request};
use crate::asking::writer_script::{carried_out, Step};
use crate::paper::answers::{Answer, AnswerLine};
use crate::paper::collection_codes::{CodeConversion, CodeRules};
use crate::paper::digit_strings::{Conversion, DigitRules};
use crate::paper::file_reader;
use crate::paper::parts::{PartCall, PartChecker};
use crate::paper::record_kinds::Subject;
use crate::paper::records::{Records, Values};
use crate::paper::writer::Writer;
use crate::paper::Paper;

/// Whoever answers requests: the papers, or one who has mistaken them.
pub trait Answers {
    fn convert(&self, conversion: Conversion, given: &[u8], memory: Vec<u8>) -> Answer;
    fn convert_code(&self, conversion: CodeConversion, given: &[u8], memory: Vec<u8>) -> Answer;
    fn read(&self, subject: Subject, bytes: &[u8]) -> Answer;
    fn write(&self, subject: Subject, values: &Values, memory: Vec<u8>) -> Answer;
    fn check_file(&self, bytes: &[u8]) -> AnswerLine;
    fn check_lines(&self, calls: &[&[u8]]) -> Vec<AnswerLine>;
    fn write_file(&self, script: &[Step], room: usize) -> Answer;
    fn check_parts(&self, calls: &[PartCall]) -> Answer;
}

impl Answers for Paper {
    fn convert(&self, conversion: Conversion, given: &[u8], memory: Vec<u8>) -> Answer {
        self.converted(conversion, given, memory)
    }

    fn convert_code(&self, conversion: CodeConversion, given: &[u8], memory: Vec<u8>) -> Answer {
        self.code_converted(conversion, given, memory)
    }

    fn read(&self, subject: Subject, bytes: &[u8]) -> Answer {
        self.read_record(subject, bytes)
    }

    fn write(&self, subject: Subject, values: &Values, memory: Vec<u8>) -> Answer {
        self.write_record(subject, values, memory)
    }

    fn check_file(&self, bytes: &[u8]) -> AnswerLine {
        file_reader::check_file(bytes)
    }

    fn check_lines(&self, calls: &[&[u8]]) -> Vec<AnswerLine> {
        file_reader::check_lines(calls)
    }

    fn write_file(&self, script: &[Step], room: usize) -> Answer {
        let mut writer = Writer::by(*self);
        carried_out(script, room, |call, output| writer.call(call, output))
    }

    fn check_parts(&self, calls: &[PartCall]) -> Answer {
        let mut checker = PartChecker::by(*self);
        let lines = calls.iter().map(|call| checker.call(*call)).collect();
        Answer::of_parts(lines, checker.accepted_lines())
    }
}

pub fn expected_answer(request: &Request) -> Answer {
    answer_by(&Paper, request)
}

/// Malformed requests are answered alike by all.
pub fn answer_by(who: &impl Answers, request: &Request) -> Answer {
    well_formed_answer(who, request).unwrap_or_else(Answer::malformed)
}

fn well_formed_answer(who: &impl Answers, request: &Request) -> Option<Answer> {
    let payload = &request.payload;
    let answer = match request.call()? {
        Call::BarcodeToLine { room } => {
            who.convert(Conversion::BarcodeToLine, payload, untouched(room))
        }
        Call::LineToBarcode { room } => {
            who.convert(Conversion::LineToBarcode, payload, untouched(room))
        }
        Call::CodeToLine { room } => {
            who.convert_code(CodeConversion::CodeToLine, payload, untouched(room))
        }
        Call::CodeLineToCode { room } => {
            who.convert_code(CodeConversion::LineToCode, payload, untouched(room))
        }
        Call::ReadRecord { subject } => who.read(subject, payload),
        Call::WriteRecord { subject, room } => {
            let values = Values::from_payload(subject.kind, payload)?;
            who.write(subject, &values, untouched(room))
        }
        Call::CheckFile => Answer::of_lines(vec![who.check_file(payload)]),
        Call::CheckLines => Answer::of_lines(who.check_lines(&request.line_calls()?)),
        Call::WriteFile { room } => who.write_file(&request.script().ok()?, room),
        Call::CheckParts => who.check_parts(&request.part_calls().ok()?),
    };
    Some(answer)
}
