//! Contents of the fields for CPF and CNPJ that are nearly right.

use crate::making::random::Random;
use crate::making::registrations::{any_base, any_letter, behind_zeros, content_of_digits};
use crate::making::registrations::{right_content, type_field, with_checks, REGISTRATIONS, TYPES};
use crate::paper::layout_table::{self as table, Field};
use crate::paper::record_kinds::RecordKind;
use crate::paper::records::Values;
use crate::paper::registration::{Registration, RegistrationRules, CHECK_DIGITS};
use crate::paper::Paper;

/// The neighbours of digits, capitals and small letters, and what numbers are
/// written with elsewhere.
const OTHER_BYTES: &[u8] = b" /:;@[`{-.~";
const BLANK: u8 = b' ';

/// A type, and what stands behind it in a field.
pub type Typed = (u8, Vec<u8>);

/// A CPF or a CNPJ that is wrong, and nothing else about it.
pub fn any_wrong_number(random: &mut Random, width: usize) -> Typed {
    let registration = random.pick(&REGISTRATIONS);
    let numbers = wrong_numbers(random, registration, width);
    let number = numbers[random.below(numbers.len())].clone();
    (registration.code(), number)
}

/// One for each of these fields.
pub fn any_wrong_numbers(random: &mut Random, fields: &[Field]) -> Vec<(Field, Typed)> {
    let wrong = fields.iter().map(|field| {
        let typed = any_wrong_number(random, field.width());
        (*field, typed)
    });
    wrong.collect()
}

/// Characters that the type does not take.
pub fn any_wrong_characters(random: &mut Random, width: usize) -> Typed {
    let code = random.pick(&TYPES);
    let contents = wrong_characters(random, code, width);
    let content = contents[random.below(contents.len())].clone();
    (code, content)
}

/// Check digits, single characters and places in front that are wrong, numbers
/// that stand to the left, and right ones of the other sort.
pub fn wrong_numbers(
    random: &mut Random,
    registration: Registration,
    width: usize,
) -> Vec<Vec<u8>> {
    let mut contents = Vec::new();
    for at in 0..width {
        let of_digits = content_of_digits(random, registration, width);
        let any = right_content(random, registration.code(), width);
        contents.extend([of_digits, any].map(|right| with_other_digit(random, right, at)));
    }
    contents.extend(with_moved_digits(random, registration, width));
    contents.extend(of_the_other_sort(random, registration, width));
    if registration == Registration::Cnpj {
        contents.extend(with_other_letters(random, width));
    }
    contents.retain(|content| {
        let taken = Paper.characters_are_right(registration.code(), content);
        taken && !Paper.number_is_right(registration, content)
    });
    contents
}

fn with_other_digit(random: &mut Random, mut content: Vec<u8>, at: usize) -> Vec<u8> {
    content[at] = match content[at] {
        digit @ b'0'..=b'9' => random.other_digit(digit),
        _ => random.digit(),
    };
    content
}

/// Both check digits changed, or swapped, or the whole number to the left.
fn with_moved_digits(
    random: &mut Random,
    registration: Registration,
    width: usize,
) -> [Vec<u8>; 3] {
    let right = right_content(random, registration.code(), width);
    let first_check = width - CHECK_DIGITS;
    let [mut changed, mut swapped, mut to_the_left] = [(); 3].map(|()| right.clone());
    for check in &mut changed[first_check..] {
        *check = random.other_digit(*check);
    }
    swapped.swap(first_check, first_check + 1);
    to_the_left.rotate_left(width - registration.characters());
    [changed, swapped, to_the_left]
}

fn of_the_other_sort(
    random: &mut Random,
    registration: Registration,
    width: usize,
) -> Vec<Vec<u8>> {
    let others = REGISTRATIONS
        .into_iter()
        .filter(|other| *other != registration);
    let contents = others.map(|other| right_content(random, other.code(), width));
    contents.collect()
}

/// At every place before the check digits.
fn with_other_letters(random: &mut Random, width: usize) -> Vec<Vec<u8>> {
    let registration = Registration::Cnpj;
    let base = width - registration.characters()..width - CHECK_DIGITS;
    let contents = base.map(|at| {
        let mut content = right_content(random, registration.code(), width);
        content[at] = any_letter(random);
        content
    });
    contents.collect()
}

/// At every place a letter, a small letter and another byte, as far as the type
/// does not take them there; small letters in a CNPJ that has some; and blanks
/// for the zeros in front.
pub fn wrong_characters(random: &mut Random, code: u8, width: usize) -> Vec<Vec<u8>> {
    let mut contents = Vec::new();
    for at in 0..width {
        let letter = any_letter(random);
        for byte in [
            letter,
            letter.to_ascii_lowercase(),
            random.pick(OTHER_BYTES),
        ] {
            let mut content = right_content(random, code, width);
            content[at] = byte;
            contents.push(content);
        }
    }
    let lettered = lettered_cnpj(random, width);
    contents.push(lettered.to_ascii_lowercase());
    contents.push(lettered);
    let mut blanks = right_content(random, code, width);
    for byte in blanks.iter_mut().take_while(|byte| **byte == b'0') {
        *byte = BLANK;
    }
    contents.push(blanks);
    contents.retain(|content| !Paper.characters_are_right(code, content));
    contents
}

fn lettered_cnpj(random: &mut Random, width: usize) -> Vec<u8> {
    let registration = Registration::Cnpj;
    let mut base = any_base(random, registration);
    base[0] = any_letter(random);
    behind_zeros(&with_checks(registration, &base), width)
}

/// Puts a type and what stands behind it into a line or a record.
pub fn put_typed(kind: RecordKind, field: Field, (code, content): &Typed, record: &mut [u8]) {
    let (_, type_field) = type_field(kind, field);
    type_field.put(record, &[*code]);
    field.put(record, content);
}

/// The same for what a caller gives. What its text has at the type's place does
/// not count.
pub fn give_typed(
    random: &mut Random,
    kind: RecordKind,
    field: Field,
    (code, content): &Typed,
    values: &mut Values,
) {
    let (index, type_field) = type_field(kind, field);
    values.numbers[index] = Some(u64::from(code - b'0'));
    type_field.put(&mut values.text, &[random.pick(&TYPES)]);
    field.put(&mut values.text, content);
}

/// Makes a number that a caller gives wrong, if the record has one.
pub fn spoil_number(random: &mut Random, kind: RecordKind, values: &mut Values) {
    let fields = table::registrations(kind);
    if !fields.is_empty() {
        let field = random.pick(&fields);
        let wrong = any_wrong_number(random, field.width());
        give_typed(random, kind, field, &wrong, values);
    }
}
