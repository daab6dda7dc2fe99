//! Mistakes about the characters of CPF and CNPJ.

use super::registration_faults::RegistrationFault;
use crate::paper::layout_table::Field;
use crate::paper::numbers::{NON_DIGIT, WRONG_REGISTRATION};
use crate::paper::record_kinds::{Direction, RecordKind, Subject};
use crate::paper::record_rules::Refusal;
use crate::paper::registration::{Registration, CHECK_DIGITS, UNCHECKED_TYPE};

/// What is refused wherever it stands.
const REFUSED: u8 = b' ';
const TAKEN_DIGIT: u8 = b'0';
const TAKEN_LETTER: u8 = b'A';
/// So many characters of a CNPJ say whose it is; the rest says which of theirs.
const CHARACTERS_OF_THE_HOLDER: usize = 8;

pub fn refuses_letters(fault: RegistrationFault, subject: Subject) -> bool {
    let (kind, direction) = (subject.kind, subject.direction);
    match fault {
        RegistrationFault::LettersRefusedInTheFileHeader => kind == RecordKind::FileHeader,
        RegistrationFault::LettersRefusedInTheBatchHeader => kind == RecordKind::BatchHeader,
        RegistrationFault::LettersRefusedInB => kind == RecordKind::B,
        RegistrationFault::LettersRefusedInJ52 => kind == RecordKind::J52,
        RegistrationFault::LettersRefusedInRemittances => direction == Direction::Remittance,
        RegistrationFault::LettersRefusedInReturns => direction == Direction::Return,
        _ => false,
    }
}

/// What the paper would see where it made the mistake.
pub fn taken_for(fault: RegistrationFault, code: u8, content: &[u8]) -> Vec<u8> {
    let width = content.len();
    let bytes = content.iter().copied().enumerate();
    let taken = bytes.map(|(at, byte)| {
        let character = Character {
            code,
            width,
            at,
            byte,
        };
        character.taken_by(fault)
    });
    taken.collect()
}

/// One character of a field behind this type.
#[derive(Clone, Copy)]
struct Character {
    code: u8,
    width: usize,
    at: usize,
    byte: u8,
}

impl Character {
    fn taken_by(self, fault: RegistrationFault) -> u8 {
        let between = (b':'..=b'@').contains(&self.byte);
        match fault {
            _ if self.is_refused_by(fault) => REFUSED,
            _ if self.is_letter() && self.is_no_letter_for(fault) => TAKEN_DIGIT,
            RegistrationFault::LowerCaseTaken => self.byte.to_ascii_uppercase(),
            RegistrationFault::BytesBetweenDigitsAndLettersTaken if between => TAKEN_LETTER,
            _ => self.byte,
        }
    }

    fn is_letter(self) -> bool {
        self.byte.is_ascii_uppercase()
    }

    /// So many places stand in front of the number.
    fn front(self) -> usize {
        let registration = Registration::of_type(self.code);
        registration.map_or(0, |number| self.width - number.characters())
    }

    fn is_refused_by(self, fault: RegistrationFault) -> bool {
        let behind_holder = self.at >= self.front() + CHARACTERS_OF_THE_HOLDER;
        match fault {
            RegistrationFault::LettersRefused => self.is_letter(),
            RegistrationFault::LetterARefused => self.byte == b'A',
            RegistrationFault::LetterZRefused => self.byte == b'Z',
            RegistrationFault::LettersRefusedBehindTheEighth => self.is_letter() && behind_holder,
            RegistrationFault::DigitInFrontIs8 => self.at < self.front() && self.byte != b'0',
            _ => false,
        }
    }

    /// Whether a letter that stands here is let pass.
    fn is_no_letter_for(self, fault: RegistrationFault) -> bool {
        let first_check = self.width - CHECK_DIGITS;
        let registration = Registration::of_type(self.code);
        let company = registration == Some(Registration::Cnpj);
        match fault {
            RegistrationFault::LettersTakenInTheFirstCheck => company && self.at == first_check,
            RegistrationFault::LettersTakenInTheSecondCheck => company && self.at > first_check,
            RegistrationFault::LettersTakenInFront => company && self.at < self.front(),
            RegistrationFault::LettersTakenWithType0 => self.code == UNCHECKED_TYPE,
            RegistrationFault::LettersTakenWithType1 => registration == Some(Registration::Cpf),
            _ => false,
        }
    }
}

/// What a refusal of wrong characters names by mistake.
pub fn wrong_characters(fault: RegistrationFault, field: Field, content: &[u8]) -> Refusal {
    match fault {
        RegistrationFault::WrongCharactersAre26 => (WRONG_REGISTRATION, field.first),
        RegistrationFault::WrongCharactersNamedAtTheType => (NON_DIGIT, field.first - 1),
        RegistrationFault::WrongCharactersNamedWhereTheyStand => {
            let before = content.iter().position(|byte| !byte.is_ascii_digit());
            (NON_DIGIT, field.first + before.unwrap_or(0))
        }
        _ => (NON_DIGIT, field.first),
    }
}
