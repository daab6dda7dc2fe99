//! Request 7 of document 02: the numbers that Receita Federal gives to persons
//! (CPF) and to companies (CNPJ). Which of them a field holds is said by the
//! type, which is the one place right before the field.

use super::layout_table::Field;
use super::numbers::{NON_DIGIT, WRONG_REGISTRATION};
use super::record_kinds::Subject;
use super::record_rules::{all_digits, Refusal};
use super::Paper;

/// With this type any digits may stand in the field.
pub const UNCHECKED_TYPE: u8 = b'0';
pub const CHECK_DIGITS: usize = 2;
const MODULUS: u32 = 11;

#[derive(Clone, Copy, PartialEq, Eq, PartialOrd, Ord, Debug)]
pub enum Registration {
    Cpf,
    Cnpj,
}

/// For each check digit the weights of all that stands before it.
pub type Weights = [&'static [u32]; CHECK_DIGITS];

const CPF_WEIGHTS: Weights = [
    &[10, 9, 8, 7, 6, 5, 4, 3, 2],
    &[11, 10, 9, 8, 7, 6, 5, 4, 3, 2],
];
const CNPJ_WEIGHTS: Weights = [
    &[5, 4, 3, 2, 9, 8, 7, 6, 5, 4, 3, 2],
    &[6, 5, 4, 3, 2, 9, 8, 7, 6, 5, 4, 3, 2],
];

impl Registration {
    /// Nothing for a type with which no number is checked.
    pub fn of_type(code: u8) -> Option<Registration> {
        match code {
            b'1' => Some(Registration::Cpf),
            b'2' => Some(Registration::Cnpj),
            _ => None,
        }
    }

    pub fn characters(self) -> usize {
        match self {
            Registration::Cpf => 11,
            Registration::Cnpj => 14,
        }
    }

    /// What stands in front in the field, and the number to the right of it.
    pub fn split(self, content: &[u8]) -> (&[u8], &[u8]) {
        content.split_at(content.len() - self.characters())
    }
}

/// The type of the number in this field.
pub fn type_before(field: Field, record: &[u8]) -> u8 {
    record[field.first - 2]
}

pub trait RegistrationRules {
    /// Number 8, in whatever record the field stands.
    fn character_refusal(&self, field: Field, _: Subject, record: &[u8]) -> Option<Refusal> {
        let right = self.characters_are_right(type_before(field, record), field.of(record));
        (!right).then_some((NON_DIGIT, field.first))
    }

    /// Only a CNPJ has letters, and only before its check digits. Whether the
    /// number is right is not asked here.
    fn characters_are_right(&self, code: u8, content: &[u8]) -> bool {
        match Registration::of_type(code) {
            Some(Registration::Cnpj) => {
                let (front, number) = Registration::Cnpj.split(content);
                let (base, checks) = number.split_at(number.len() - CHECK_DIGITS);
                let is_taken = |byte: &u8| byte.is_ascii_digit() || byte.is_ascii_uppercase();
                all_digits(front) && base.iter().all(is_taken) && all_digits(checks)
            }
            _ => all_digits(content),
        }
    }

    /// Number 26. Where the characters are wrong a row before has refused.
    fn registration_refusal(&self, field: Field, _: Subject, record: &[u8]) -> Option<Refusal> {
        let (code, content) = (type_before(field, record), field.of(record));
        let registration = self.registration_of(code)?;
        let wrong = self.characters_are_right(code, content)
            && !self.number_is_right(registration, content);
        wrong.then_some((WRONG_REGISTRATION, field.first))
    }

    fn registration_of(&self, code: u8) -> Option<Registration> {
        Registration::of_type(code)
    }

    /// The number stands to the right behind zeros.
    fn number_is_right(&self, registration: Registration, content: &[u8]) -> bool {
        let (front, number) = registration.split(content);
        let zeros = front.iter().all(|byte| *byte == b'0');
        zeros && self.checks_are_right(registration, number)
    }

    fn checks_are_right(&self, registration: Registration, number: &[u8]) -> bool {
        let checks = &number[number.len() - CHECK_DIGITS..];
        let weights = self.weights(registration);
        let mut pairs = checks.iter().zip(weights);
        pairs.all(|(check, weights)| *check == self.check_over(number, weights))
    }

    fn weights(&self, registration: Registration) -> Weights {
        match registration {
            Registration::Cpf => CPF_WEIGHTS,
            Registration::Cnpj => CNPJ_WEIGHTS,
        }
    }

    fn check_over(&self, number: &[u8], weights: &[u32]) -> u8 {
        self.check_digit(self.remainder_over(number, weights))
    }

    /// Over as many characters as there are weights.
    fn remainder_over(&self, number: &[u8], weights: &[u32]) -> u32 {
        let pairs = number.iter().zip(weights);
        let products = pairs.map(|(byte, weight)| self.counts(*byte) * weight);
        products.sum::<u32>() % MODULUS
    }

    /// A letter counts its ASCII code less 48, as a digit does.
    fn counts(&self, character: u8) -> u32 {
        u32::from(character - b'0')
    }

    fn check_digit(&self, remainder: u32) -> u8 {
        match remainder {
            0 | 1 => b'0',
            _ => b'0' + (MODULUS - remainder) as u8,
        }
    }
}

impl RegistrationRules for Paper {}
