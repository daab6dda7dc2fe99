//! What has to be seen in a run of CPF and CNPJ, so that a sort of number which
//! no longer comes up is noticed. What is to be said of each sort stands here
//! once more.

use crate::asking::probe::Op;
use crate::cases::registration_cases::pairs_of;
use crate::checking::registration_sights::{Sight, Sort};
use crate::checking::script_sights;
use crate::damage::{call_flaws, record_flaws};
use crate::making::registrations::{type_field, TYPES};
use crate::paper::layout_table::{self as table, Field, SEGMENT_PLACE, TYPE_PLACE};
use crate::paper::numbers::{NON_DIGIT, WRONG_REGISTRATION};
use crate::paper::record_kinds::{all_subjects, RecordKind, Subject};
use crate::paper::registration::Registration;

const OF_ONE_RECORD: [Op; 2] = [Op::ReadRecord, Op::WriteRecord];
const OF_FILES: [Op; 4] = [Op::CheckFile, Op::CheckLines, Op::CheckParts, Op::WriteFile];
const TAKEN: Option<u32> = None;

/// All that has to be seen in a run.
pub fn demanded() -> Vec<Sight> {
    let mut sights = Vec::new();
    for subject in all_subjects() {
        for field in table::registrations(subject.kind) {
            for op in OF_ONE_RECORD.into_iter().chain(OF_FILES) {
                sights.extend(numbers(op, subject, field));
            }
            for op in OF_FILES {
                sights.extend(behind_others(op, subject, field));
            }
        }
    }
    for op in OF_FILES {
        sights.extend(two_wrong(op));
    }
    sights
}

fn numbers(op: Op, subject: Subject, field: Field) -> Vec<Sight> {
    let mut sights = Vec::new();
    for code in TYPES {
        for (sort, refused) in sorts(code, field.width()) {
            // A wrong number in a record alone is nobody's business.
            let alone = OF_ONE_RECORD.contains(&op) && refused == Some(WRONG_REGISTRATION);
            sights.push(Sight::Number {
                op: char::from(op.code()),
                direction: char::from(subject.direction.code()),
                kind: script_sights::code(subject.kind),
                place: field.first,
                code: char::from(code),
                sort,
                refused: if alone { TAKEN } else { refused },
            });
        }
    }
    sights
}

/// What may stand in a field behind this type, and the number it is refused with.
fn sorts(code: u8, width: usize) -> Vec<(Sort, Option<u32>)> {
    let (characters, number) = (Some(NON_DIGIT), Some(WRONG_REGISTRATION));
    let mut sorts = vec![
        (Sort::Zeros, TAKEN),
        (Sort::Digits, TAKEN),
        (Sort::SmallLetter, characters),
        (Sort::OtherByte, characters),
    ];
    match Registration::of_type(code) {
        None => sorts.push((Sort::LetterWithThisType, characters)),
        Some(Registration::Cpf) => sorts.extend([
            (Sort::EqualDigits, TAKEN),
            (Sort::LetterWithThisType, characters),
            (Sort::FirstCheckWrong, number),
            (Sort::SecondCheckWrong, number),
            (Sort::DigitInFront, number),
        ]),
        Some(Registration::Cnpj) => {
            sorts.extend([
                (Sort::Letters, TAKEN),
                (Sort::LetterInFirstCheck, characters),
                (Sort::LetterInSecondCheck, characters),
                (Sort::FirstCheckWrong, number),
                (Sort::SecondCheckWrong, number),
                (Sort::WrongWithLetters, number),
            ]);
            if width > Registration::Cnpj.characters() {
                sorts.push((Sort::LetterInFront, characters));
                sorts.push((Sort::DigitInFront, number));
            }
        }
    }
    sorts
}

/// Every other field of the record that can be wrong, but for the number's type.
fn behind_others(op: Op, subject: Subject, number: Field) -> Vec<Sight> {
    let (_, its_type) = type_field(subject.kind, number);
    let fields: Vec<Field> = match op {
        Op::WriteFile => {
            let given = call_flaws::fields_to_spoil(subject).into_iter();
            given.map(|(_, field)| field).collect()
        }
        _ => record_flaws::fields_to_spoil(subject),
    };
    let named = fields.into_iter().filter_map(|field| {
        let by = named_at(subject.kind, field)?;
        (field != number && field != its_type).then_some(by)
    });
    let sights = named.map(|by| Sight::Behind {
        op: char::from(op.code()),
        kind: script_sights::code(subject.kind),
        place: number.first,
        by,
    });
    sights.collect()
}

/// Where a wrong field is named, if it is tested as a field: what comes before
/// the fields has numbers of its own, and a wrong form is named at the service.
fn named_at(kind: RecordKind, field: Field) -> Option<usize> {
    let before_fields = match kind.segment() {
        Some(_) => SEGMENT_PLACE,
        None => TYPE_PLACE,
    };
    let is_form = table::form_of(kind) == Some(field);
    (field.first > before_fields && !is_form).then_some(field.first)
}

fn two_wrong(op: Op) -> Vec<Sight> {
    let pairs = pairs_of(&table::registrations(RecordKind::J52)).into_iter();
    let sights = pairs.map(|[first, second]| Sight::TwoWrong {
        op: char::from(op.code()),
        first: first.first,
        second: second.first,
    });
    sights.collect()
}
