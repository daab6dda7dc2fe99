//! How the values of a record travel in a request.

use crate::paper::layout_table::{self as table, Entry};
use crate::paper::lines::RECORD_BYTES;
use crate::paper::record_kinds::RecordKind;
use crate::paper::records::Values;

pub const DIGITS_OF_A_VALUE: usize = 20;
/// What is sent for a number that is not given.
pub const NOT_GIVEN: [u8; DIGITS_OF_A_VALUE] = [b' '; DIGITS_OF_A_VALUE];

/// Why what is sent for a number is none.
#[derive(Clone, Copy, PartialEq, Eq, PartialOrd, Ord, Debug)]
pub enum NoNumber {
    /// Nothing but blanks, for a number that is always given.
    Blanks,
    BlanksAndDigits,
    OtherByte,
    TooLarge,
}

pub const NO_NUMBERS: [NoNumber; 4] = [
    NoNumber::Blanks,
    NoNumber::BlanksAndDigits,
    NoNumber::OtherByte,
    NoNumber::TooLarge,
];

impl Values {
    /// Nothing for a payload that is no values of this kind of record.
    pub fn from_payload(kind: RecordKind, payload: &[u8]) -> Option<Values> {
        let digits = table::fields(kind).len() * DIGITS_OF_A_VALUE;
        if payload.len() != digits + RECORD_BYTES {
            return None;
        }
        let (numbers, text) = payload.split_at(digits);
        let sent = numbers.chunks(DIGITS_OF_A_VALUE).enumerate();
        let numbers = sent.map(|(index, sent)| sent_number(kind, index, sent).ok());
        Some(Values {
            numbers: numbers.collect::<Option<_>>()?,
            text: text.to_vec(),
        })
    }

    pub fn to_payload(&self) -> Vec<u8> {
        let numbers = self.numbers.iter();
        let mut payload: Vec<u8> = numbers.flat_map(|number| bytes_to_send(*number)).collect();
        payload.extend_from_slice(&self.text);
        payload
    }
}

fn bytes_to_send(number: Option<u64>) -> Vec<u8> {
    match number {
        Some(number) => format!("{number:0width$}", width = DIGITS_OF_A_VALUE).into_bytes(),
        None => NOT_GIVEN.to_vec(),
    }
}

/// Whether the number with this index may be not given in a record of this kind.
pub fn may_be_absent(kind: RecordKind, index: usize) -> bool {
    let field = table::fields(kind).get(index).copied();
    field.is_some_and(|field| field.entry == Entry::OptionalNumber)
}

/// What was sent for the number with this index; nothing for one not given.
pub fn sent_number(kind: RecordKind, index: usize, sent: &[u8]) -> Result<Option<u64>, NoNumber> {
    let is_blank = |byte: &u8| *byte == b' ';
    if sent.iter().all(is_blank) {
        let allowed = may_be_absent(kind, index);
        return allowed.then_some(None).ok_or(NoNumber::Blanks);
    }
    if !sent
        .iter()
        .all(|byte| byte.is_ascii_digit() || is_blank(byte))
    {
        return Err(NoNumber::OtherByte);
    }
    if sent.iter().any(is_blank) {
        return Err(NoNumber::BlanksAndDigits);
    }
    number_in_64_bits(sent).map(Some).ok_or(NoNumber::TooLarge)
}

fn number_in_64_bits(digits: &[u8]) -> Option<u64> {
    digits.iter().try_fold(0_u64, |number, digit| {
        let digit = u64::from(digit - b'0');
        number.checked_mul(10)?.checked_add(digit)
    })
}
