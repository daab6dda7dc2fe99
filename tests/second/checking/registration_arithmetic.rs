//! Receita Federal's rule in other words than the papers have it: the weights are
//! counted from the right, and a check digit lifts the sum to a multiple of
//! eleven, with 0 written for 10.

use crate::paper::registration::{Registration, CHECK_DIGITS};

const LIGHTEST_WEIGHT: u32 = 2;
/// Behind this weight the lightest comes again; a CPF is not as long as that.
const HEAVIEST_WEIGHT_OF_A_CNPJ: u32 = 9;
const HEAVIEST_WEIGHT_OF_A_CPF: u32 = 11;
const MODULUS: u32 = 11;
const DIGITS: u32 = 10;

/// Which of the check digits of a number are right.
pub fn right_checks(registration: Registration, number: &[u8]) -> [bool; CHECK_DIGITS] {
    let heaviest = match registration {
        Registration::Cpf => HEAVIEST_WEIGHT_OF_A_CPF,
        Registration::Cnpj => HEAVIEST_WEIGHT_OF_A_CNPJ,
    };
    let first = number.len() - CHECK_DIGITS;
    [first, first + 1].map(|at| {
        let lift = lift_over(&number[..at], heaviest);
        u32::from(number[at]) == u32::from(b'0') + lift % DIGITS
    })
}

/// What is missing from a multiple of eleven.
fn lift_over(characters: &[u8], heaviest: u32) -> u32 {
    let weights = (LIGHTEST_WEIGHT..=heaviest).cycle();
    let products = characters.iter().rev().zip(weights);
    let sum: u32 = products
        .map(|(byte, weight)| (u32::from(*byte) - u32::from(b'0')) * weight)
        .sum();
    (MODULUS - sum % MODULUS) % MODULUS
}

/// Whether a content whose characters are right holds a right number. That is cut
/// out here once more, so that a slip in the papers' `split` is none here.
pub fn is_right(registration: Registration, content: &[u8]) -> bool {
    let (front, number) = content.split_at(content.len() - registration.characters());
    let zeros = front.iter().all(|byte| *byte == b'0');
    zeros && right_checks(registration, number) == [true, true]
}
