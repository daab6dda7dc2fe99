//! CPF and CNPJ numbers that are right, as they stand in the fields of records.

use crate::making::good_barcodes::digits;
use crate::making::random::Random;
use crate::paper::layout_table::{self as table, Field};
use crate::paper::record_kinds::RecordKind;
use crate::paper::registration::{type_before, Registration, RegistrationRules, CHECK_DIGITS};
use crate::paper::Paper;

pub const TYPES: [u8; 3] = *b"012";
pub const REGISTRATIONS: [Registration; 2] = [Registration::Cpf, Registration::Cnpj];

/// Both ends of the alphabet, and letters that count the same modulo 11: A, L and
/// W, or K and V.
const LIKELY_LETTERS: &[u8] = b"AKLVWZ";
/// One with equal digits, one with few, three with letters and one with any digits.
const BASES_TO_DRAW_FROM: usize = 6;
const SEVERAL_LETTERS_ONCE_IN: usize = 3;
const ANY_NUMBERS: usize = 4;
/// Two that give 0, and the one that gives 1.
const REMAINDERS_OF_NOTE: [u32; 3] = [0, 1, 10];

impl Registration {
    pub fn code(self) -> u8 {
        match self {
            Registration::Cpf => b'1',
            Registration::Cnpj => b'2',
        }
    }
}

/// The field right before a number, with its index among all fields of the record.
pub fn type_field(kind: RecordKind, number: Field) -> (usize, Field) {
    let fields = table::fields(kind).into_iter().enumerate();
    let mut before = fields.filter(|(_, field)| field.last + 1 == number.first);
    match before.next() {
        Some(found) => found,
        None => unreachable!("a type stands before every such number"),
    }
}

/// Behind zeros, as wide as the field.
pub fn behind_zeros(number: &[u8], width: usize) -> Vec<u8> {
    let zeros = vec![b'0'; width - number.len()];
    [zeros.as_slice(), number].concat()
}

/// What a field with a number of this type may hold in a file.
pub fn right_content(random: &mut Random, code: u8, width: usize) -> Vec<u8> {
    match Registration::of_type(code) {
        Some(registration) => {
            let base = any_base(random, registration);
            behind_zeros(&with_checks(registration, &base), width)
        }
        None => digits(random, width),
    }
}

/// A right number without letters.
pub fn content_of_digits(random: &mut Random, registration: Registration, width: usize) -> Vec<u8> {
    let base = digits(random, registration.characters() - CHECK_DIGITS);
    behind_zeros(&with_checks(registration, &base), width)
}

/// Right characters; of a record alone nobody asks whether the number is right.
pub fn content_of_a_record(random: &mut Random, code: u8, width: usize) -> Vec<u8> {
    if random.coin() {
        return right_content(random, code, width);
    }
    let mut content = digits(random, width);
    if code == Registration::Cnpj.code() {
        let base = width - Registration::Cnpj.characters()..width - CHECK_DIGITS;
        put_letters(random, &mut content[base]);
    }
    content
}

/// Makes every number of a record right for its type.
pub fn put_right_numbers(random: &mut Random, kind: RecordKind, record: &mut [u8]) {
    for field in table::registrations(kind) {
        let content = right_content(random, type_before(field, record), field.width());
        field.put(record, &content);
    }
}

/// The number that begins so.
pub fn with_checks(registration: Registration, base: &[u8]) -> Vec<u8> {
    let mut number = base.to_vec();
    for weights in Paper.weights(registration) {
        number.push(Paper.check_over(&number, weights));
    }
    number
}

/// All that stands before the check digits: any digits, few of them, all of them
/// equal, or in a CNPJ letters.
pub fn any_base(random: &mut Random, registration: Registration) -> Vec<u8> {
    let length = registration.characters() - CHECK_DIGITS;
    let mut base = digits(random, length);
    match random.below(BASES_TO_DRAW_FROM) {
        0 => base.fill(random.digit()),
        1 => base[..random.between(1, length)].fill(b'0'),
        2..=4 if registration == Registration::Cnpj => put_letters(random, &mut base),
        _ => {}
    }
    base
}

/// One, several, or nothing but letters.
fn put_letters(random: &mut Random, base: &mut [u8]) {
    let letters = match random.below(SEVERAL_LETTERS_ONCE_IN) {
        0 => random.between(2, base.len()),
        _ => 1,
    };
    let mut places: Vec<usize> = (0..base.len()).collect();
    random.shuffle(&mut places);
    for at in places.into_iter().take(letters) {
        base[at] = any_letter(random);
    }
}

pub fn any_letter(random: &mut Random) -> u8 {
    if random.coin() {
        return random.pick(LIKELY_LETTERS);
    }
    random.between(b'A'.into(), b'Z'.into()) as u8
}

/// Numbers of note and any others: the example of request 7 and one that a
/// letter with the same remainder makes of it, two CPF that differ in one digit,
/// equal digits, every remainder that gives no digit of its own, and letters
/// alone.
pub fn right_contents(random: &mut Random, code: u8, width: usize) -> Vec<Vec<u8>> {
    let mut contents: Vec<Vec<u8>> = (0..ANY_NUMBERS)
        .map(|_| right_content(random, code, width))
        .collect();
    contents.push(vec![b'0'; width]);
    if let Some(registration) = Registration::of_type(code) {
        let mut numbers: Vec<Vec<u8>> = examples(registration).map(<[u8]>::to_vec).to_vec();
        for digit in [b'1', b'7', b'9'] {
            let equal = vec![digit; registration.characters() - CHECK_DIGITS];
            numbers.push(with_checks(registration, &equal));
        }
        for check in 0..CHECK_DIGITS {
            for remainder in REMAINDERS_OF_NOTE {
                numbers.push(with_remainder(random, registration, check, remainder));
            }
        }
        contents.extend(numbers.iter().map(|number| behind_zeros(number, width)));
    }
    contents
}

fn examples(registration: Registration) -> [&'static [u8]; 4] {
    match registration {
        Registration::Cpf => [
            b"12345678909",
            b"00000000604",
            b"10000000604",
            b"99999999999",
        ],
        Registration::Cnpj => [
            b"12ABC34501DE35",
            b"126BC34501DE35",
            b"ZZZZZZZZZZZZ62",
            b"11222333000181",
        ],
    }
}

/// A number whose check digit, the first or the second, comes from this
/// remainder.
fn with_remainder(
    random: &mut Random,
    registration: Registration,
    check: usize,
    wanted: u32,
) -> Vec<u8> {
    let weights = Paper.weights(registration)[check];
    loop {
        let number = with_checks(registration, &any_base(random, registration));
        if Paper.remainder_over(&number, weights) == wanted {
            return number;
        }
    }
}
