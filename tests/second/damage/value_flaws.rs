//! What can be wrong with the values of a record that is written alone.

use crate::asking::values::DIGITS_OF_A_VALUE;
use crate::damage::record_flaws;
use crate::making::random::Random;
use crate::paper::layout_table::{self as table, Entry, Field};
use crate::paper::record_kinds::{RecordKind, Subject};
use crate::paper::records::{first_too_wide, number_of, Values};

pub const NUMBERS_OVER_64_BITS: [&[u8; DIGITS_OF_A_VALUE]; 3] = [
    b"18446744073709551616",
    b"20000000000000000000",
    b"99999999999999999999",
];

/// A number is made too wide, or wrong where its field knows wrong numbers.
/// Text at fixed places is spoiled as well and must not matter.
pub fn spoil_value(random: &mut Random, subject: Subject, field: Field, values: &mut Values) {
    if !field.is_number() {
        record_flaws::spoil(random, field, &mut values.text);
        return;
    }
    let fields = number_fields(subject.kind).into_iter();
    let number = wrong_number(random, field);
    for (index, _) in fields.filter(|(_, other)| *other == field) {
        values.numbers[index] = Some(number);
    }
}

fn wrong_number(random: &mut Random, field: Field) -> u64 {
    let too_wide = first_too_wide(field);
    let wide = random.pick(&[too_wide, too_wide + 1, u64::MAX]);
    match field.entry {
        Entry::Number | Entry::OptionalNumber => wide,
        _ if random.coin() => wide,
        // No field but a plain number holds all nines.
        Entry::OneOf(domain) if domain.contains(&b'9') => too_wide - 2,
        _ => too_wide - 1,
    }
}

/// With their index among all fields of the record.
pub fn number_fields(kind: RecordKind) -> Vec<(usize, Field)> {
    let fields = table::fields(kind).into_iter().enumerate();
    fields.filter(|(_, field)| field.is_number()).collect()
}

pub fn numbers_in(list: &str) -> Vec<u64> {
    let words = list.split(' ');
    words.map(|digits| number_of(digits.as_bytes())).collect()
}
