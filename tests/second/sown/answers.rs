//! What a fault makes of a request.

use super::faults::Fault;
use super::parts::SownParts;
use super::writer::SownWriter;
use super::Sown;
use crate::asking::probe::Request;
use crate::asking::writer_script::{carried_out, Step};
use crate::comparing::expected::{answer_by, Answers};
use crate::paper::answers::{Answer, AnswerLine};
use crate::paper::collection_codes::{CodeConversion, CodeRules};
use crate::paper::digit_strings::{Conversion, DigitRules};
use crate::paper::parts::PartCall;
use crate::paper::record_kinds::Subject;
use crate::paper::records::{Records, Values};

pub fn mistaken_answer(request: &Request, fault: Fault) -> Answer {
    answer_by(&Sown::with(fault), request)
}

impl Answers for Sown {
    fn convert(&self, conversion: Conversion, given: &[u8], memory: Vec<u8>) -> Answer {
        let mut answer = self.converted(conversion, given, memory);
        for line in &mut answer.lines {
            line.verdict = self.named_in_a_string(line.verdict);
        }
        answer
    }

    fn convert_code(&self, conversion: CodeConversion, given: &[u8], memory: Vec<u8>) -> Answer {
        let mut answer = self.code_converted(conversion, given, memory);
        self.spoil_conversion(conversion, given, &mut answer);
        answer
    }

    fn read(&self, subject: Subject, bytes: &[u8]) -> Answer {
        self.read_record(subject, bytes)
    }

    fn write(&self, subject: Subject, values: &Values, memory: Vec<u8>) -> Answer {
        let mut answer = self.write_record(subject, values, memory);
        self.spoil_memory_of_record(subject, values, &mut answer);
        answer
    }

    fn check_file(&self, bytes: &[u8]) -> AnswerLine {
        self.file_line(bytes)
    }

    fn check_lines(&self, calls: &[&[u8]]) -> Vec<AnswerLine> {
        self.call_lines(calls)
    }

    fn write_file(&self, script: &[Step], room: usize) -> Answer {
        let mut writer = SownWriter::with(*self);
        carried_out(script, room, |call, output| writer.call(call, output))
    }

    fn check_parts(&self, calls: &[PartCall]) -> Answer {
        let mut checker = SownParts::with(*self);
        let lines = calls.iter().map(|call| checker.call(*call)).collect();
        Answer::of_parts(lines, checker.accepted_lines())
    }
}
