//! The calls of a file in parts as they travel in a request: parts, each with
//! its length before it, and declared ends.

use crate::asking::probe::six_digits;
use crate::paper::parts::PartCall;

pub const PART: u8 = b'+';
pub const END: u8 = b'.';
pub const PART_LENGTH_DIGITS: usize = 6;
/// What comes before the bytes of a part.
pub const BYTES_BEFORE_A_PART: usize = 1 + PART_LENGTH_DIGITS;
pub const BYTES_OF_AN_END: usize = 1;

/// Why a payload is no such calls.
#[derive(Clone, Copy, PartialEq, Eq, PartialOrd, Ord, Debug)]
pub enum PartMisfit {
    UnknownLetter,
    LengthCutShort,
    NonDigit,
    PartCutShort,
}

pub const PART_MISFITS: [PartMisfit; 4] = [
    PartMisfit::UnknownLetter,
    PartMisfit::LengthCutShort,
    PartMisfit::NonDigit,
    PartMisfit::PartCutShort,
];

pub fn to_payload(calls: &[PartCall]) -> Vec<u8> {
    let mut payload = Vec::new();
    for call in calls {
        match call {
            PartCall::Part(bytes) => {
                payload.push(PART);
                let length = format!("{:0width$}", bytes.len(), width = PART_LENGTH_DIGITS);
                payload.extend_from_slice(length.as_bytes());
                payload.extend_from_slice(bytes);
            }
            PartCall::End => payload.push(END),
        }
    }
    payload
}

pub fn from_payload(payload: &[u8]) -> Result<Vec<PartCall<'_>>, PartMisfit> {
    let mut calls = Vec::new();
    let mut rest = payload;
    while let Some((letter, behind)) = rest.split_first() {
        let (call, others) = match *letter {
            PART => part_before(behind)?,
            END => (PartCall::End, behind),
            _ => return Err(PartMisfit::UnknownLetter),
        };
        calls.push(call);
        rest = others;
    }
    Ok(calls)
}

/// The part that these bytes begin with, and what stands behind it.
fn part_before(bytes: &[u8]) -> Result<(PartCall<'_>, &[u8]), PartMisfit> {
    let digits = bytes.get(..PART_LENGTH_DIGITS);
    let digits = digits.ok_or(PartMisfit::LengthCutShort)?;
    let length = six_digits(digits).ok_or(PartMisfit::NonDigit)?;
    let behind = &bytes[PART_LENGTH_DIGITS..];
    let part = behind.get(..length).ok_or(PartMisfit::PartCutShort)?;
    Ok((PartCall::Part(part), &behind[length..]))
}
