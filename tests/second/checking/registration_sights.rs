//! What can be seen of CPF and CNPJ in the records of a run.

use crate::checking::judged_records::Judged;
use crate::checking::registration_arithmetic::{is_right, right_checks};
use crate::checking::script_sights;
use crate::paper::layout_table::{self as table, Field};
use crate::paper::numbers::WRONG_REGISTRATION;
use crate::paper::registration::{type_before, Registration, CHECK_DIGITS, UNCHECKED_TYPE};

/// What stands in a field, by what is of note in it.
#[derive(Clone, Copy, PartialEq, Eq, PartialOrd, Ord, Debug)]
pub enum Sort {
    // Right numbers, and what type 0 takes for one.
    Zeros,
    EqualDigits,
    Digits,
    Letters,
    // Wrong ones.
    FirstCheckWrong,
    SecondCheckWrong,
    WrongWithLetters,
    DigitInFront,
    // Wrong characters.
    LetterWithThisType,
    LetterInFront,
    LetterInFirstCheck,
    LetterInSecondCheck,
    SmallLetter,
    OtherByte,
}

/// Something seen in a record. Ops, directions and kinds of records are named by
/// their codes, fields by their first place.
#[derive(Clone, Copy, PartialEq, Eq, PartialOrd, Ord, Debug)]
pub enum Sight {
    /// A number in a record that was taken, or the one it was refused for.
    Number {
        op: char,
        direction: char,
        kind: char,
        place: usize,
        code: char,
        sort: Sort,
        refused: Option<u32>,
    },
    /// A wrong number in a record that was refused for another field.
    Behind {
        op: char,
        kind: char,
        place: usize,
        by: usize,
    },
    /// A record refused for the first of two wrong numbers.
    TwoWrong {
        op: char,
        first: usize,
        second: usize,
    },
}

pub fn sights_of(judged: &Judged) -> Vec<Sight> {
    let fields = table::registrations(judged.subject.kind);
    let mut sights = Vec::new();
    for field in &fields {
        sights.extend(number_sight(judged, *field));
        sights.extend(behind_another(judged, *field));
    }
    sights.extend(two_wrong(judged, &fields));
    sights
}

fn op_of(judged: &Judged) -> char {
    char::from(judged.op.code())
}

fn number_sight(judged: &Judged, field: Field) -> Option<Sight> {
    let refused = match judged.refusal {
        None => None,
        Some((number, place)) if place == field.first => Some(number),
        Some(_) => return None,
    };
    let code = type_before(field, &judged.bytes);
    let sort = sort_of(code, field.of(&judged.bytes))?;
    Some(Sight::Number {
        op: op_of(judged),
        direction: char::from(judged.subject.direction.code()),
        kind: script_sights::code(judged.subject.kind),
        place: field.first,
        code: char::from(code),
        sort,
        refused,
    })
}

fn behind_another(judged: &Judged, field: Field) -> Option<Sight> {
    let (number, by) = judged.refusal?;
    let by_another = by != field.first && number != WRONG_REGISTRATION;
    (by_another && is_wrong(field, &judged.bytes)).then(|| Sight::Behind {
        op: op_of(judged),
        kind: script_sights::code(judged.subject.kind),
        place: field.first,
        by,
    })
}

fn two_wrong(judged: &Judged, fields: &[Field]) -> Vec<Sight> {
    let first = match judged.refusal {
        Some((WRONG_REGISTRATION, place)) => place,
        _ => return Vec::new(),
    };
    let later = fields.iter().filter(|field| field.first > first);
    let wrong = later.filter(|field| is_wrong(**field, &judged.bytes));
    let sights = wrong.map(|field| Sight::TwoWrong {
        op: op_of(judged),
        first,
        second: field.first,
    });
    sights.collect()
}

/// Whether 26 is to be said of the number.
fn is_wrong(field: Field, record: &[u8]) -> bool {
    let wrong = [
        Sort::FirstCheckWrong,
        Sort::SecondCheckWrong,
        Sort::WrongWithLetters,
        Sort::DigitInFront,
    ];
    let sort = sort_of(type_before(field, record), field.of(record));
    sort.is_some_and(|sort| wrong.contains(&sort))
}

/// Nothing for what is of no note: several things wrong at once, or no type.
fn sort_of(code: u8, content: &[u8]) -> Option<Sort> {
    if !content.iter().all(u8::is_ascii_alphanumeric) {
        return Some(Sort::OtherByte);
    }
    if content.iter().any(u8::is_ascii_lowercase) {
        return Some(Sort::SmallLetter);
    }
    let lettered = content.iter().any(u8::is_ascii_uppercase);
    match (code, Registration::of_type(code)) {
        (UNCHECKED_TYPE, _) | (_, Some(Registration::Cpf)) if lettered => {
            Some(Sort::LetterWithThisType)
        }
        (UNCHECKED_TYPE, _) => unchecked_sort(content),
        (_, Some(Registration::Cnpj)) if lettered => lettered_sort(content),
        (_, Some(registration)) => digits_sort(registration, content),
        _ => None,
    }
}

/// Digits that are neither a right CPF nor a right CNPJ, or zeros, which are both.
fn unchecked_sort(content: &[u8]) -> Option<Sort> {
    let of_either = [Registration::Cpf, Registration::Cnpj];
    let right = of_either.map(|registration| is_right(registration, content));
    match right {
        _ if content.iter().all(|byte| *byte == b'0') => Some(Sort::Zeros),
        [false, false] => Some(Sort::Digits),
        _ => None,
    }
}

fn lettered_sort(content: &[u8]) -> Option<Sort> {
    let registration = Registration::Cnpj;
    let front = content.len() - registration.characters();
    let first_check = content.len() - CHECK_DIGITS;
    let in_base = |at: &usize| (front..first_check).contains(at);
    let letters = content.iter().enumerate();
    let letters = letters.filter(|(_, byte)| byte.is_ascii_uppercase());
    let mut outside = letters.map(|(at, _)| at).filter(|at| !in_base(at));
    match (outside.next(), outside.next()) {
        (Some(at), None) if at < front => Some(Sort::LetterInFront),
        (Some(at), None) if at == first_check => Some(Sort::LetterInFirstCheck),
        (Some(_), None) => Some(Sort::LetterInSecondCheck),
        (Some(_), Some(_)) => None,
        (None, _) if is_right(registration, content) => Some(Sort::Letters),
        (None, _) => Some(Sort::WrongWithLetters),
    }
}

fn digits_sort(registration: Registration, content: &[u8]) -> Option<Sort> {
    let (front, number) = registration.split(content);
    let in_front = front.iter().any(|byte| *byte != b'0');
    match right_checks(registration, number) {
        [true, true] if in_front => Some(Sort::DigitInFront),
        _ if in_front => None,
        [false, _] => Some(Sort::FirstCheckWrong),
        [true, false] => Some(Sort::SecondCheckWrong),
        _ if number.iter().all(|byte| *byte == b'0') => Some(Sort::Zeros),
        _ if number.iter().all(|byte| *byte == number[0]) => Some(Sort::EqualDigits),
        _ => Some(Sort::Digits),
    }
}
