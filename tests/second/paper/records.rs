//! Reading and writing one record alone, as document 01 describes them.

use super::answers::{Answer, AnswerLine, FieldValue, Verdict};
use super::layout_table::{self as table, Entry, Field};
use super::lines::RECORD_BYTES;
use super::record_kinds::{RecordKind, Subject};
use super::record_rules::{all_blank, Draft, RecordRules};
use super::Paper;

/// What the caller of a write gives: a number for each field, which counts
/// where the field is a number, and text, which counts at the other places.
#[derive(Clone)]
pub struct Values {
    /// Nothing for a number that is not given; no number stands for that.
    pub numbers: Vec<Option<u64>>,
    pub text: Vec<u8>,
}

impl Values {
    /// What reading a good record gives.
    pub fn of_record(kind: RecordKind, record: &[u8]) -> Values {
        let fields = table::fields(kind).into_iter();
        let numbers = fields.map(|field| {
            if field.is_number() {
                number_at(field, record)
            } else {
                Some(0)
            }
        });
        Values {
            numbers: numbers.collect(),
            text: record.to_vec(),
        }
    }
}

/// The number that digits give; no field has more of them than 64 bits hold.
/// Other bytes come here from damaged records, and then any number will do.
pub fn number_of(digits: &[u8]) -> u64 {
    digits.iter().fold(0, |number, digit| {
        number * 10 + u64::from(digit.wrapping_sub(b'0'))
    })
}

/// The number of a field of a good record; nothing where it is not given.
pub fn number_at(field: Field, record: &[u8]) -> Option<u64> {
    let content = field.of(record);
    let not_given = field.entry == Entry::OptionalNumber && all_blank(content);
    (!not_given).then(|| number_of(content))
}

/// The smallest number with more digits than the field.
pub fn first_too_wide(field: Field) -> u64 {
    (0..field.width()).fold(1, |power, _| power * 10)
}

pub trait Records: RecordRules {
    fn read_record(&self, subject: Subject, bytes: &[u8]) -> Answer {
        let draft = Draft::of_bytes(bytes);
        let verdict = self.record_verdict(subject, &draft, None);
        if verdict != Verdict::Accepted {
            return Answer::without_memory(verdict);
        }
        let fields = table::fields(subject.kind);
        let numbers = fields.iter().filter(|field| field.is_number());
        let line = AnswerLine {
            fields: fields.iter().map(|f| self.value_in(*f, bytes)).collect(),
            ..AnswerLine::plain(verdict)
        };
        Answer {
            unbound: numbers.map(|field| field.range()).collect(),
            memory: Some(draft.bytes),
            ..Answer::of_lines(vec![line])
        }
    }

    fn value_in(&self, field: Field, record: &[u8]) -> FieldValue {
        if field.is_number() {
            FieldValue::of_number(number_at(field, record))
        } else {
            FieldValue::Bytes
        }
    }

    /// What writing a record into lent memory gives.
    fn write_record(&self, subject: Subject, values: &Values, mut memory: Vec<u8>) -> Answer {
        let draft = self.draft(subject.kind, values);
        let verdict = self.record_verdict(subject, &draft, Some(memory.len()));
        if verdict == Verdict::Accepted {
            memory[..RECORD_BYTES].copy_from_slice(&draft.bytes);
        }
        Answer::with_memory(verdict, memory)
    }

    /// The record as it would be written. A number that is not given leaves its
    /// field blank, which is for the test of the field to judge.
    fn draft(&self, kind: RecordKind, values: &Values) -> Draft {
        let mut bytes = values.text.clone();
        let mut too_wide = Vec::new();
        for (field, number) in table::fields(kind).into_iter().zip(&values.numbers) {
            if let Some(content) = field.fixed_content() {
                field.put(&mut bytes, &content);
            } else if field.is_number() {
                let content = number.map_or_else(|| blanks(field), |number| digits(field, number));
                let surplus = content.len() - field.width();
                if surplus > 0 {
                    too_wide.push(field);
                }
                field.put(&mut bytes, &content[surplus..]);
            }
        }
        Draft { bytes, too_wide }
    }
}

impl Records for Paper {}

fn blanks(field: Field) -> Vec<u8> {
    vec![b' '; field.width()]
}

/// As many as the field has places, or more.
fn digits(field: Field, number: u64) -> Vec<u8> {
    format!("{number:0width$}", width = field.width()).into_bytes()
}
