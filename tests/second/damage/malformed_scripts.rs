//! Payloads that are no scripts, each made from a script by one change. Nothing
//! of them is done, however good the calls before the change are.

use crate::asking::values::DIGITS_OF_A_VALUE;
use crate::asking::writer_script::{LEND, LENT_DIGITS, NUMBERS_OF_A_RECORD, OVERWRITE};
use crate::damage::value_flaws::NUMBERS_OVER_64_BITS;
use crate::making::random::Random;
use crate::paper::lines::RECORD_BYTES;
use crate::paper::writer_calls::WriterCall;

const LETTERS_TO_TRY: &[u8] = b"olpcemxABDFJKNQWYZ019 -\n\x00\xFF";
const COUNTS_TO_TRY: &[u8] = b"04589 -:/\n\x00";
const KINDS_TO_TRY: &[u8] = b"34678CDabjoz -\n\x00\xFF";
const NO_DIGITS_TO_TRY: &[u8] = b" +-/:A\n\x00\xFF";

/// A record travels as its kind, its numbers and its text.
const BYTES_OF_A_RECORD: usize = 1 + NUMBERS_OF_A_RECORD * DIGITS_OF_A_VALUE + RECORD_BYTES;
/// Letter and count come before the records.
const BYTES_BEFORE_RECORDS: usize = 2;

/// What a change is given: the payload, and where one of its calls begins.
pub type Change = fn(&mut Random, &mut Vec<u8>, usize);

/// Each changes the call that begins at a place of the payload, or what comes
/// before it.
pub const CHANGES: [Change; 11] = [
    letter,
    count,
    count_of_another_call,
    kind,
    non_digit,
    number_too_large,
    cut_short,
    stray_byte_at_the_end,
    lend_without_digits,
    lend_cut_short,
    overwrite_without_byte,
];

/// How many bytes of a payload a call takes.
pub fn bytes_of(call: &WriterCall) -> usize {
    BYTES_BEFORE_RECORDS + call.records.len() * BYTES_OF_A_RECORD
}

/// Where in a call a number of one of its records stands.
pub fn start_of_number(record: usize, index: usize) -> usize {
    BYTES_BEFORE_RECORDS + record * BYTES_OF_A_RECORD + 1 + index * DIGITS_OF_A_VALUE
}

fn letter(random: &mut Random, payload: &mut Vec<u8>, at: usize) {
    payload[at] = random.pick(LETTERS_TO_TRY);
}

fn count(random: &mut Random, payload: &mut Vec<u8>, at: usize) {
    payload[at + 1] = random.pick(COUNTS_TO_TRY);
}

/// One record for a payment, or two for another call or for one O.
fn count_of_another_call(_: &mut Random, payload: &mut Vec<u8>, at: usize) {
    payload[at + 1] = match payload[at + 1] {
        b'1' => b'2',
        _ => b'1',
    };
}

fn kind(random: &mut Random, payload: &mut Vec<u8>, at: usize) {
    payload[at + BYTES_BEFORE_RECORDS] = random.pick(KINDS_TO_TRY);
}

fn non_digit(random: &mut Random, payload: &mut Vec<u8>, at: usize) {
    let digits = NUMBERS_OF_A_RECORD * DIGITS_OF_A_VALUE;
    let inside = random.below(digits);
    let digit = random.pick(&[0, inside, digits - 1]);
    payload[at + start_of_number(0, 0) + digit] = random.pick(NO_DIGITS_TO_TRY);
}

fn number_too_large(random: &mut Random, payload: &mut Vec<u8>, at: usize) {
    let index = random.below(NUMBERS_OF_A_RECORD);
    let begin = at + start_of_number(0, index);
    let number = random.pick(&NUMBERS_OVER_64_BITS);
    payload[begin..][..DIGITS_OF_A_VALUE].copy_from_slice(number);
}

/// Behind the letter, the count, the kind, somewhere, or before the last byte.
fn cut_short(random: &mut Random, payload: &mut Vec<u8>, at: usize) {
    let behind = random.between(1, BYTES_BEFORE_RECORDS + 1);
    let inside = random.between(1, BYTES_OF_A_RECORD);
    let last = BYTES_BEFORE_RECORDS + BYTES_OF_A_RECORD - 1;
    payload.truncate(at + random.pick(&[behind, inside, last]));
}

fn stray_byte_at_the_end(random: &mut Random, payload: &mut Vec<u8>, _: usize) {
    payload.push(random.pick(LETTERS_TO_TRY));
}

fn lend_without_digits(random: &mut Random, payload: &mut Vec<u8>, at: usize) {
    let mut step = [b'0'; 1 + LENT_DIGITS];
    step[0] = LEND;
    step[random.between(1, LENT_DIGITS)] = random.pick(NO_DIGITS_TO_TRY);
    payload.splice(at..at, step);
}

fn lend_cut_short(random: &mut Random, payload: &mut Vec<u8>, _: usize) {
    payload.push(LEND);
    let digits = random.below(LENT_DIGITS);
    payload.extend(vec![b'0'; digits]);
}

fn overwrite_without_byte(_: &mut Random, payload: &mut Vec<u8>, _: usize) {
    payload.push(OVERWRITE);
}
