//! The two numbers of an A that may be not given, each not given, zero or any
//! other number.

use crate::making::random::Random;
use crate::paper::layout_table::{optional_numbers, Field};
use crate::paper::places::NOT_THERE_YET;
use crate::paper::record_kinds::RecordKind;
use crate::paper::record_rules::all_blank;
use crate::paper::records::{first_too_wide, Values};

/// What one of the two holds.
#[derive(Clone, Copy, PartialEq, Eq, PartialOrd, Ord, Debug)]
pub enum Holding {
    NotGiven,
    /// Which is a number, and given.
    Zero,
    Number,
}

const HOLDINGS: [Holding; 3] = [Holding::NotGiven, Holding::Zero, Holding::Number];

/// What both hold, from left to right.
pub type Pair = [Holding; 2];

/// Among them the four ways in which two numbers are given or not.
pub fn all_pairs() -> Vec<Pair> {
    let pairs = HOLDINGS.into_iter();
    let pairs = pairs.flat_map(|first| HOLDINGS.map(|second| [first, second]));
    pairs.collect()
}

/// What the two numbers of a good A hold.
pub fn pair_in(record: &[u8]) -> Pair {
    NOT_THERE_YET.map(|part| match part.of(record) {
        content if all_blank(content) => Holding::NotGiven,
        content => of_number(content.iter().all(|digit| *digit == b'0')),
    })
}

/// What the caller gives for the two numbers of an A.
pub fn pair_given(values: &Values) -> Pair {
    fields().map(|(index, _)| match values.numbers[index] {
        None => Holding::NotGiven,
        Some(number) => of_number(number == 0),
    })
}

fn of_number(is_zero: bool) -> Holding {
    if is_zero {
        Holding::Zero
    } else {
        Holding::Number
    }
}

/// The two fields, with their index among all fields of an A.
pub fn fields() -> [(usize, Field); 2] {
    match optional_numbers(RecordKind::A).try_into() {
        Ok(fields) => fields,
        Err(_) => unreachable!("two numbers of an A may be not given"),
    }
}

pub fn put_pair(random: &mut Random, record: &mut [u8], pair: Pair) {
    for ((_, field), holding) in fields().into_iter().zip(pair) {
        let content = content(random, field, holding);
        field.put(record, &content);
    }
}

pub fn give_pair(random: &mut Random, values: &mut Values, pair: Pair) {
    for ((index, field), holding) in fields().into_iter().zip(pair) {
        values.numbers[index] = match holding {
            Holding::NotGiven => None,
            Holding::Zero => Some(0),
            Holding::Number => Some(any_number(random, field)),
        };
    }
}

fn content(random: &mut Random, field: Field, holding: Holding) -> Vec<u8> {
    let width = field.width();
    match holding {
        Holding::NotGiven => vec![b' '; width],
        Holding::Zero => vec![b'0'; width],
        Holding::Number => format!("{:0width$}", any_number(random, field)).into_bytes(),
    }
}

/// Any number but 0, those at both ends as often as not.
fn any_number(random: &mut Random, field: Field) -> u64 {
    let largest = first_too_wide(field) - 1;
    let any = random.between(1, largest as usize) as u64;
    random.pick(&[1, largest, any, any])
}
