//! The requests about files with CPF and CNPJ of every sort: as a whole, line by
//! line and in parts.

use crate::cases::file_cases::{FileCases, Replaced};
use crate::cases::registration_cases::{pairs_of, typed_contents, REPEATS_PER_PAIR};
use crate::damage::record_flaws::{self, fields_to_spoil};
use crate::damage::registration_flaws::{any_wrong_numbers, put_typed, Typed};
use crate::making::cuttings::cut_at;
use crate::making::registrations::type_field;
use crate::paper::layout_table::{self as table, Field};
use crate::paper::lines::LINE_BYTES;
use crate::paper::record_kinds::{all_subjects, Subject};

impl FileCases<'_> {
    pub fn ask_registrations(&mut self) {
        for replaced in self.lines_with_numbers() {
            self.ask_file(replaced.bytes());
        }
        for replaced in self.lines_with_numbers() {
            self.ask_calls(&replaced.calls());
        }
    }

    pub fn ask_registrations_in_parts(&mut self) {
        for replaced in self.lines_with_numbers() {
            self.ask_in_parts(&replaced.bytes());
        }
        for subject in all_subjects() {
            for field in table::registrations(subject.kind) {
                self.cut_in_a_number(subject, field);
            }
        }
    }

    /// Good files but for one line: with a number of every sort in each of its
    /// fields, with a wrong number beside a wrong field, and with several wrong
    /// numbers.
    fn lines_with_numbers(&mut self) -> Vec<Replaced> {
        let mut lines = Vec::new();
        for subject in all_subjects() {
            let numbers = table::registrations(subject.kind);
            for field in &numbers {
                for typed in typed_contents(self.random, field.width()) {
                    lines.extend(self.line_with(subject, &[(*field, typed)]));
                }
                lines.extend(self.beside_wrong_fields(subject, *field));
            }
            for pair in pairs_of(&numbers) {
                for _ in 0..REPEATS_PER_PAIR {
                    lines.extend(self.with_wrong_numbers(subject, &pair));
                }
            }
            lines.extend(self.with_wrong_numbers(subject, &numbers));
        }
        lines
    }

    /// A line of this kind with these contents.
    fn line_with(&mut self, subject: Subject, contents: &[(Field, Typed)]) -> Option<Replaced> {
        let (file, mut line, at) = self.flawed_beside_good(subject, &[])?;
        for (field, typed) in contents {
            put_typed(subject.kind, *field, typed, &mut line);
        }
        Some(Replaced { file, at, line })
    }

    fn with_wrong_numbers(&mut self, subject: Subject, fields: &[Field]) -> Option<Replaced> {
        let contents = any_wrong_numbers(self.random, fields);
        self.line_with(subject, &contents)
    }

    /// Every other field that can be wrong stands before the wrong number in the
    /// order of tests, wherever it stands in the line.
    fn beside_wrong_fields(&mut self, subject: Subject, number: Field) -> Vec<Replaced> {
        let mut lines = Vec::new();
        let (_, its_type) = type_field(subject.kind, number);
        let others = fields_to_spoil(subject).into_iter();
        for field in others.filter(|field| *field != number && *field != its_type) {
            if let Some(mut replaced) = self.with_wrong_numbers(subject, &[number]) {
                record_flaws::spoil(self.random, field, &mut replaced.line);
                lines.push(replaced);
            }
        }
        lines
    }

    /// The two parts meet at each place of the type and the number.
    fn cut_in_a_number(&mut self, subject: Subject, field: Field) {
        for place in field.first - 2..=field.last {
            let wrong = self.with_wrong_numbers(subject, &[field]);
            let right = self.line_with(subject, &[]);
            for replaced in [wrong, right].into_iter().flatten() {
                let start = replaced.at * LINE_BYTES;
                let bytes = replaced.bytes();
                self.ask_cut_file(cut_at(&bytes, &[start + place]));
            }
        }
    }
}
