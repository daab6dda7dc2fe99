//! The requests about one record alone with CPF and CNPJ of every sort: their
//! characters are tested, and whether they are right is not.

use crate::asking::probe::{Op, Request};
use crate::damage::registration_flaws::{any_wrong_characters, any_wrong_number, Typed};
use crate::damage::registration_flaws::{give_typed, put_typed, wrong_characters, wrong_numbers};
use crate::making::good_records::good_record;
use crate::making::random::Random;
use crate::making::registrations::{right_contents, TYPES};
use crate::paper::layout_table::{self as table, Field};
use crate::paper::lines::RECORD_BYTES;
use crate::paper::record_kinds::{all_subjects, Subject};
use crate::paper::records::Values;
use crate::paper::registration::Registration;

const PAIRS_OF_FIELDS: usize = 6;
/// So often two fields of a record are wrong together in files and in scripts.
pub const REPEATS_PER_PAIR: usize = 4;

/// What may stand in a field of this width: right numbers of every type, wrong
/// ones, and characters that no number has.
pub fn typed_contents(random: &mut Random, width: usize) -> Vec<Typed> {
    let mut typed = Vec::new();
    for code in TYPES {
        let mut contents = right_contents(random, code, width);
        contents.extend(wrong_characters(random, code, width));
        if let Some(registration) = Registration::of_type(code) {
            contents.extend(wrong_numbers(random, registration, width));
        }
        typed.extend(contents.into_iter().map(|content| (code, content)));
    }
    typed
}

/// Two fields of one record, from left to right.
pub fn pairs_of(fields: &[Field]) -> Vec<[Field; 2]> {
    let firsts = fields.iter().enumerate();
    let pairs = firsts.flat_map(|(index, first)| {
        let seconds = fields[index + 1..].iter();
        seconds.map(|second| [*first, *second])
    });
    pairs.collect()
}

pub fn requests(random: &mut Random) -> Vec<Request> {
    let requests = Vec::new();
    let mut cases = RegistrationCases { random, requests };
    for subject in all_subjects() {
        let fields = table::registrations(subject.kind);
        for field in &fields {
            for typed in typed_contents(cases.random, field.width()) {
                cases.read_and_written(subject, &[(*field, typed)]);
            }
        }
        for pair in pairs_of(&fields) {
            cases.two_wrong_ones(subject, pair);
        }
    }
    cases.requests
}

struct RegistrationCases<'a> {
    random: &'a mut Random,
    requests: Vec<Request>,
}

impl RegistrationCases<'_> {
    /// A good record but for these fields.
    fn read_and_written(&mut self, subject: Subject, contents: &[(Field, Typed)]) {
        let kind = subject.kind;
        let mut record = good_record(self.random, subject);
        let mut values = Values::of_record(kind, &record);
        for (field, typed) in contents {
            put_typed(kind, *field, typed, &mut record);
            give_typed(self.random, kind, *field, typed, &mut values);
        }
        let read = Request::about_record(Op::ReadRecord, subject, 0, record);
        let payload = values.to_payload();
        let write = Request::about_record(Op::WriteRecord, subject, RECORD_BYTES, payload);
        self.requests.extend([read, write]);
    }

    /// Wrong characters are named from the left; wrong numbers are not named.
    fn two_wrong_ones(&mut self, subject: Subject, pair: [Field; 2]) {
        for _ in 0..PAIRS_OF_FIELDS {
            let contents = pair.map(|field| {
                let typed = if self.random.coin() {
                    any_wrong_characters(self.random, field.width())
                } else {
                    any_wrong_number(self.random, field.width())
                };
                (field, typed)
            });
            self.read_and_written(subject, &contents);
        }
    }
}
