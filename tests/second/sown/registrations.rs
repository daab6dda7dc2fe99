//! Mistakes about CPF and CNPJ.

use super::registration_characters::{refuses_letters, taken_for, wrong_characters};
use super::registration_faults::RegistrationFault;
use super::Sown;
use crate::paper::layout_table::{self as table, Field};
use crate::paper::numbers::{NON_DIGIT, WRONG_CHECK, WRONG_REGISTRATION};
use crate::paper::record_kinds::{Direction, RecordKind, Subject};
use crate::paper::record_rules::Refusal;
use crate::paper::registration::{type_before, Registration, RegistrationRules, Weights};
use crate::paper::registration::{CHECK_DIGITS, UNCHECKED_TYPE};
use crate::paper::Paper;

impl RegistrationRules for Sown {
    fn character_refusal(&self, field: Field, subject: Subject, record: &[u8]) -> Option<Refusal> {
        let fault = match self.registration_fault() {
            Some(fault) => fault,
            None => return Paper.character_refusal(field, subject, record),
        };
        let content = field.of(record);
        let lettered = content.iter().any(u8::is_ascii_uppercase);
        if lettered && refuses_letters(fault, subject) {
            return Some((NON_DIGIT, field.first));
        }
        if !self.characters_are_right(type_before(field, record), content) {
            return Some(wrong_characters(fault, field, content));
        }
        match fault {
            RegistrationFault::TestedAtItsOwnField | RegistrationFault::TestedInARecordAlone => {
                self.registration_refusal(field, subject, record)
            }
            _ => None,
        }
    }

    fn characters_are_right(&self, code: u8, content: &[u8]) -> bool {
        match self.registration_fault() {
            Some(fault) => Paper.characters_are_right(code, &taken_for(fault, code, content)),
            None => Paper.characters_are_right(code, content),
        }
    }

    fn registration_refusal(
        &self,
        field: Field,
        subject: Subject,
        record: &[u8],
    ) -> Option<Refusal> {
        let fault = match self.registration_fault() {
            Some(fault) => fault,
            None => return Paper.registration_refusal(field, subject, record),
        };
        let (code, content) = (type_before(field, record), field.of(record));
        let registration = self.registration_of(code)?;
        let wrong = is_tested(fault, field, subject)
            && self.characters_are_right(code, content)
            && !self.number_is_right(registration, content);
        wrong.then(|| wrong_number(fault, field))
    }

    fn registration_of(&self, code: u8) -> Option<Registration> {
        match (self.registration_fault(), code) {
            (Some(RegistrationFault::Type0TestedAsCpf), UNCHECKED_TYPE) => Some(Registration::Cpf),
            (Some(RegistrationFault::Type0TestedAsCnpj), UNCHECKED_TYPE) => {
                Some(Registration::Cnpj)
            }
            _ => Registration::of_type(code),
        }
    }

    fn number_is_right(&self, registration: Registration, content: &[u8]) -> bool {
        let (front, number) = registration.split(content);
        let zeros = |bytes: &[u8]| bytes.iter().all(|byte| *byte == b'0');
        let equal = number.iter().all(|byte| *byte == number[0]);
        let lettered = number.iter().any(u8::is_ascii_uppercase);
        let right = self.checks_are_right(registration, number);
        match (self.registration_fault(), registration) {
            (Some(RegistrationFault::CpfNotTested), Registration::Cpf)
            | (Some(RegistrationFault::CnpjNotTested), Registration::Cnpj) => true,
            (Some(RegistrationFault::LetteredCnpjNotTested), _) if lettered => true,
            (Some(RegistrationFault::FrontOfCpfNotTested), Registration::Cpf)
            | (Some(RegistrationFault::FrontOfCnpjNotTested), Registration::Cnpj) => right,
            (Some(RegistrationFault::TakenFromTheLeft), _) => {
                let (number, behind) = content.split_at(number.len());
                zeros(behind) && self.checks_are_right(registration, number)
            }
            (Some(RegistrationFault::EqualDigitsRefused), _) if equal => false,
            (Some(RegistrationFault::ZerosRefused), _) if zeros(number) => false,
            _ => zeros(front) && right,
        }
    }

    fn checks_are_right(&self, registration: Registration, number: &[u8]) -> bool {
        let checks = number[number.len() - CHECK_DIGITS..].iter();
        let mut right = checks
            .zip(self.weights(registration))
            .map(|(check, weights)| *check == self.check_over(number, weights));
        let (first, second) = (right.next(), right.next());
        match self.registration_fault() {
            Some(RegistrationFault::FirstCheckNotTested) => second == Some(true),
            Some(RegistrationFault::SecondCheckNotTested) => first == Some(true),
            _ => first == Some(true) && second == Some(true),
        }
    }

    fn weights(&self, registration: Registration) -> Weights {
        use Registration::{Cnpj, Cpf};
        match (self.registration_fault(), registration) {
            (Some(RegistrationFault::CpfWeightsTurnedRound), Cpf) => [
                &[2, 3, 4, 5, 6, 7, 8, 9, 10],
                &[2, 3, 4, 5, 6, 7, 8, 9, 10, 11],
            ],
            (Some(RegistrationFault::SecondCpfWeightsFromTen), Cpf) => [
                &[10, 9, 8, 7, 6, 5, 4, 3, 2],
                &[10, 9, 8, 7, 6, 5, 4, 3, 2, 1],
            ],
            (Some(RegistrationFault::CnpjWeightsTurnedRound), Cnpj) => [
                &[2, 3, 4, 5, 6, 7, 8, 9, 2, 3, 4, 5],
                &[2, 3, 4, 5, 6, 7, 8, 9, 2, 3, 4, 5, 6],
            ],
            (Some(RegistrationFault::CnpjWeightsNeverGoRound), Cnpj) => [
                &[13, 12, 11, 10, 9, 8, 7, 6, 5, 4, 3, 2],
                &[14, 13, 12, 11, 10, 9, 8, 7, 6, 5, 4, 3, 2],
            ],
            (Some(RegistrationFault::SecondCnpjWeightsFromFive), Cnpj) => [
                &[5, 4, 3, 2, 9, 8, 7, 6, 5, 4, 3, 2],
                &[5, 4, 3, 2, 9, 8, 7, 6, 5, 4, 3, 2, 9],
            ],
            _ => Paper.weights(registration),
        }
    }

    fn counts(&self, character: u8) -> u32 {
        let before_a = match self.registration_fault() {
            Some(RegistrationFault::LettersCountedFromTen) => 9,
            Some(RegistrationFault::LettersCountedFromOne) => 0,
            _ => return Paper.counts(character),
        };
        match character {
            b'A'..=b'Z' => before_a + u32::from(character - b'A') + 1,
            _ => Paper.counts(character),
        }
    }

    fn check_digit(&self, remainder: u32) -> u8 {
        match (self.registration_fault(), remainder) {
            // No digit at all, so that none is right.
            (Some(RegistrationFault::RemainderOneGivesTen), 1) => b'0' + 10,
            (Some(RegistrationFault::RemainderOneGivesOne), 1) => b'1',
            (Some(RegistrationFault::RemainderTenGivesZero), 10) => b'0',
            (Some(RegistrationFault::RemaindersOfABarcode), 0 | 1 | 10) => b'1',
            _ => Paper.check_digit(remainder),
        }
    }
}

fn wrong_number(fault: RegistrationFault, field: Field) -> Refusal {
    match fault {
        RegistrationFault::WrongNumberIs8 => (NON_DIGIT, field.first),
        RegistrationFault::WrongNumberIs16 => (WRONG_CHECK, field.first),
        RegistrationFault::WrongNumberNamedAtTheType => (WRONG_REGISTRATION, field.first - 1),
        RegistrationFault::WrongNumberNamedAtItsCheck => {
            (WRONG_REGISTRATION, field.last + 1 - CHECK_DIGITS)
        }
        _ => (WRONG_REGISTRATION, field.first),
    }
}

fn is_tested(fault: RegistrationFault, field: Field, subject: Subject) -> bool {
    let (kind, direction) = (subject.kind, subject.direction);
    let numbers = table::registrations(kind);
    let is_first = numbers.first() == Some(&field);
    let is_last = numbers.last() == Some(&field);
    match fault {
        RegistrationFault::NotTestedInTheFileHeader => kind != RecordKind::FileHeader,
        RegistrationFault::NotTestedInTheBatchHeader => kind != RecordKind::BatchHeader,
        RegistrationFault::NotTestedInB => kind != RecordKind::B,
        RegistrationFault::NotTestedInJ52 => kind != RecordKind::J52,
        RegistrationFault::NotTestedInRemittances => direction != Direction::Remittance,
        RegistrationFault::NotTestedInReturns => direction != Direction::Return,
        RegistrationFault::OnlyTheFirstOfJ52Tested => is_first,
        RegistrationFault::LastOfJ52NotTested => kind != RecordKind::J52 || !is_last,
        _ => true,
    }
}
