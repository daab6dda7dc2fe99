//! Scripts with CPF and CNPJ of every sort.

use crate::cases::registration_cases::{pairs_of, typed_contents, REPEATS_PER_PAIR};
use crate::cases::script_cases::ScriptCases;
use crate::damage::call_flaws::{fields_to_spoil, spoil_field};
use crate::damage::registration_flaws::{any_wrong_numbers, give_typed, Typed};
use crate::making::good_calls::Frame;
use crate::making::registrations::type_field;
use crate::paper::layout_table::{self as table, Field};
use crate::paper::record_kinds::{all_subjects, Subject};

impl ScriptCases<'_> {
    /// A number of every sort in each field that may have one, a wrong number
    /// beside a wrong field, and several wrong numbers.
    pub fn ask_registrations(&mut self) {
        for subject in all_subjects() {
            let numbers = table::registrations(subject.kind);
            for field in &numbers {
                for typed in typed_contents(self.random, field.width()) {
                    self.ask_numbers(subject, &[(*field, typed)], None);
                }
                self.number_beside_wrong_fields(subject, *field);
            }
            for pair in pairs_of(&numbers) {
                for _ in 0..REPEATS_PER_PAIR {
                    self.ask_wrong_numbers(subject, &pair, None);
                }
            }
        }
    }

    fn number_beside_wrong_fields(&mut self, subject: Subject, number: Field) {
        let (_, its_type) = type_field(subject.kind, number);
        for (index, field) in fields_to_spoil(subject) {
            if field != number && field != its_type {
                self.ask_wrong_numbers(subject, &[number], Some((index, field)));
            }
        }
    }

    fn ask_wrong_numbers(
        &mut self,
        subject: Subject,
        fields: &[Field],
        spoiled: Option<(usize, Field)>,
    ) {
        let contents = any_wrong_numbers(self.random, fields);
        self.ask_numbers(subject, &contents, spoiled);
    }

    /// A good record but for these contents, and perhaps for one field more.
    fn ask_numbers(
        &mut self,
        subject: Subject,
        contents: &[(Field, Typed)],
        spoiled: Option<(usize, Field)>,
    ) {
        let good = match Frame::around(self.random, subject) {
            Some(good) => good,
            None => return,
        };
        let mut changed = good.clone();
        let values = &mut changed.record_mut().values;
        for (field, typed) in contents {
            give_typed(self.random, subject.kind, *field, typed, values);
        }
        if let Some(field) = spoiled {
            spoil_field(self.random, field, values);
        }
        self.ask_spoiled(&good, &changed);
    }
}
