//! Scripts about one field of one record that a caller gives.

use crate::asking::writer_script::NUMBERS_OF_A_RECORD;
use crate::cases::script_cases::ScriptCases;
use crate::damage::call_flaws::{self, fields_to_spoil, wide_numbers};
use crate::damage::record_flaws::{self, DATES, TIMES, UNPRINTABLE};
use crate::damage::value_flaws::numbers_in;
use crate::making::good_calls::{given_numbers, Frame};
use crate::paper::layout_table::{self as table, Entry};
use crate::paper::record_kinds::{
    all_subjects, Direction, RecordKind, Subject, DIRECTIONS, RECORD_KINDS,
};
use crate::paper::records::first_too_wide;

const KNOWN_NUMBERS: usize = 2;
const SERVICE_PAIRS: usize = 20;
const SERVICES: [u64; 13] = [0, 1, 2, 3, 20, 21, 22, 29, 29, 99, 103, 120, 129];
const FORMS: [u64; 14] = [0, 1, 3, 10, 11, 11, 30, 31, 41, 45, 99, 101, 111, 130];
const REPEATS_PER_BOLETO_FLAWS: usize = 2;
const COMBINATIONS_OF_BOLETO_FLAWS: usize = 16;
/// Other than the number that the field should have.
const DIGITS_TO_TRY: u64 = 12;

impl ScriptCases<'_> {
    pub fn ask_fields(&mut self) {
        for subject in all_subjects() {
            self.spoiled_fields(subject);
            self.numbers(subject);
            self.known_numbers(subject);
            self.wrong_bytes(subject);
            self.texts_with_blanks(subject);
        }
        for kind in RECORD_KINDS {
            self.largest_numbers(kind);
        }
        for direction in DIRECTIONS {
            self.service_pairs(direction);
            self.broken_boletos(direction);
        }
    }

    /// Asks for a record that is changed in some way.
    fn ask_changed(&mut self, subject: Subject, change: impl Fn(&mut ScriptCases, &mut Frame)) {
        if let Some(good) = Frame::around(self.random, subject) {
            let mut changed = good.clone();
            change(self, &mut changed);
            self.ask_spoiled(&good, &changed);
        }
    }

    fn spoiled_fields(&mut self, subject: Subject) {
        for field in fields_to_spoil(subject) {
            self.ask_changed(subject, |cases, frame| {
                let values = &mut frame.record_mut().values;
                call_flaws::spoil_field(cases.random, field, values);
            });
        }
    }

    /// Too wide for the field, and the widest that is not.
    fn numbers(&mut self, subject: Subject) {
        for (index, field) in given_numbers(subject.kind) {
            self.ask_changed(subject, |cases, frame| {
                let number = &mut frame.record_mut().values.numbers[index];
                *number = Some(cases.random.pick(&wide_numbers(field, *number)));
            });
            self.ask_changed(subject, |_, frame| {
                frame.record_mut().values.numbers[index] = Some(first_too_wide(field) - 1);
            });
        }
    }

    /// The numbers that dates, times and domains tell apart.
    fn known_numbers(&mut self, subject: Subject) {
        for (index, field) in given_numbers(subject.kind) {
            let numbers: Vec<u64> = match field.entry {
                Entry::Date => numbers_in(DATES),
                Entry::Time => numbers_in(TIMES),
                Entry::OneOf(_) => (0..DIGITS_TO_TRY).collect(),
                _ => continue,
            };
            for _ in 0..KNOWN_NUMBERS {
                self.ask_changed(subject, |cases, frame| {
                    let number = cases.random.pick(&numbers);
                    frame.record_mut().values.numbers[index] = Some(number);
                });
            }
        }
    }

    /// In every field, of those too where text does not count.
    fn wrong_bytes(&mut self, subject: Subject) {
        for field in table::fields(subject.kind) {
            self.ask_changed(subject, |cases, frame| {
                let inside = cases.random.between(field.first, field.last);
                let place = cases.random.pick(&[field.first, inside, field.last]);
                let byte = cases.random.pick(UNPRINTABLE);
                frame.record_mut().values.text[place - 1] = byte;
            });
        }
    }

    fn texts_with_blanks(&mut self, subject: Subject) {
        let fields = table::fields(subject.kind).into_iter();
        for field in fields.filter(|field| field.entry == Entry::Text) {
            self.ask_changed(subject, |cases, frame| {
                let texts = record_flaws::texts_with_blanks(field.width());
                let text = &texts[cases.random.below(texts.len())];
                field.put(&mut frame.record_mut().values.text, text);
            });
        }
    }

    /// In every field of the record, and in the numbers it has no field for.
    fn largest_numbers(&mut self, kind: RecordKind) {
        for index in 0..NUMBERS_OF_A_RECORD {
            // Only a return has all kinds of records.
            let direction = match kind {
                RecordKind::Z => Direction::Return,
                _ => self.random.pick(&DIRECTIONS),
            };
            self.ask_changed(Subject { kind, direction }, |_, frame| {
                frame.record_mut().values.numbers[index] = Some(u64::MAX);
            });
        }
    }

    fn service_pairs(&mut self, direction: Direction) {
        let kind = RecordKind::BatchHeader;
        for _ in 0..SERVICE_PAIRS {
            self.ask_changed(Subject { kind, direction }, |cases, frame| {
                for (index, field) in given_numbers(kind) {
                    let number = &mut frame.record_mut().values.numbers[index];
                    match field.entry {
                        Entry::Service => *number = Some(cases.random.pick(&SERVICES)),
                        Entry::Form => *number = Some(cases.random.pick(&FORMS)),
                        _ => {}
                    }
                }
            });
        }
    }

    /// Every combination of what can be wrong over the fields of a J.
    fn broken_boletos(&mut self, direction: Direction) {
        let kind = RecordKind::J;
        for flaws in 1..COMBINATIONS_OF_BOLETO_FLAWS {
            for _ in 0..REPEATS_PER_BOLETO_FLAWS {
                self.ask_changed(Subject { kind, direction }, |cases, frame| {
                    call_flaws::spoil_boleto(cases.random, frame, flaws);
                });
            }
        }
    }
}
