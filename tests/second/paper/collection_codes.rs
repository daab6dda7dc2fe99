//! Request 5 of document 02: the codes of FEBRABAN's collection family, with
//! which water, power and taxes are paid. A code has 44 digits; its line has 48,
//! four blocks of eleven digits each with a check behind it.

use super::answers::{Answer, Verdict};
use super::digit_strings::DigitRules;
use super::numbers::{NON_DIGIT_IN_A_STRING, OUTPUT_TOO_SHORT, WRONG_BLOCK_CHECK};
use super::numbers::{WRONG_CODE_CHECK, WRONG_DIGIT_COUNT, WRONG_IDENTIFIER, WRONG_PRODUCT};
use super::Paper;

pub const CODE_DIGITS: usize = 44;
pub const CODE_LINE_DIGITS: usize = 48;

pub const PRODUCT_PLACE: usize = 1;
pub const PRODUCT: u8 = b'8';
pub const IDENTIFIER_PLACE: usize = 3;
/// In a line too.
pub const CODE_CHECK_PLACE: usize = 4;

pub const BLOCKS: usize = 4;
pub const DIGITS_OF_A_BLOCK: usize = 11;
pub const BLOCK_CHECK_PLACES: [usize; BLOCKS] = [12, 24, 36, 48];

const ELEVEN: u32 = 11;
const LIGHTEST_WEIGHT: u32 = 2;
const HEAVIEST_WEIGHT: u32 = 9;

/// How the checks of a code are made.
#[derive(Clone, Copy, PartialEq, Eq, PartialOrd, Ord, Debug)]
pub enum Modulus {
    Ten,
    Eleven,
}

impl Modulus {
    /// Nothing for a digit that is no value identifier.
    pub fn of_identifier(identifier: u8) -> Option<Modulus> {
        match identifier {
            b'6' | b'7' => Some(Modulus::Ten),
            b'8' | b'9' => Some(Modulus::Eleven),
            _ => None,
        }
    }
}

#[derive(Clone, Copy, PartialEq, Eq)]
pub enum CodeConversion {
    CodeToLine,
    LineToCode,
}

pub const CODE_CONVERSIONS: [CodeConversion; 2] =
    [CodeConversion::CodeToLine, CodeConversion::LineToCode];

impl CodeConversion {
    pub fn given_digits(self) -> usize {
        match self {
            CodeConversion::CodeToLine => CODE_DIGITS,
            CodeConversion::LineToCode => CODE_LINE_DIGITS,
        }
    }

    pub fn result_digits(self) -> usize {
        match self {
            CodeConversion::CodeToLine => CODE_LINE_DIGITS,
            CodeConversion::LineToCode => CODE_DIGITS,
        }
    }
}

/// A row of the numbers that can refuse a string of this family.
#[derive(Clone, Copy, PartialEq, Eq)]
pub enum Row {
    Length,
    NonDigit,
    Product,
    Identifier,
    Block(usize),
    General,
    Room,
}

/// In the order in which they are tested.
fn rows_in_order(conversion: CodeConversion) -> Vec<Row> {
    let mut rows = vec![Row::Length, Row::NonDigit, Row::Product, Row::Identifier];
    if conversion == CodeConversion::LineToCode {
        rows.extend((0..BLOCKS).map(Row::Block));
    }
    rows.extend([Row::General, Row::Room]);
    rows
}

pub trait CodeRules: DigitRules {
    fn is_product(&self, digit: u8) -> bool {
        digit == PRODUCT
    }

    fn modulus_of(&self, identifier: u8) -> Option<Modulus> {
        Modulus::of_identifier(identifier)
    }

    fn check_by(&self, modulus: Modulus, digits: &[u8]) -> u8 {
        match modulus {
            Modulus::Ten => self.check_by_ten(digits),
            Modulus::Eleven => self.last_step(self.remainder_by_eleven(digits)),
        }
    }

    /// That of a field of a boleto's line.
    fn check_by_ten(&self, digits: &[u8]) -> u8 {
        self.field_check(digits)
    }

    /// Weights 2 to 9, again and again, from the right.
    fn remainder_by_eleven(&self, digits: &[u8]) -> u32 {
        let weights = (LIGHTEST_WEIGHT..=HEAVIEST_WEIGHT).cycle();
        let products = digits.iter().rev().zip(weights);
        let sum: u32 = products
            .map(|(digit, weight)| u32::from(digit - b'0') * weight)
            .sum();
        sum % ELEVEN
    }

    /// Not that of a boleto's general check.
    fn last_step(&self, remainder: u32) -> u8 {
        match remainder {
            0 | 1 => b'0',
            10 => b'1',
            _ => b'0' + (ELEVEN - remainder) as u8,
        }
    }

    /// The digit that belongs at the general check's place, whatever stands there;
    /// nothing where no identifier says how it is made.
    fn code_check(&self, code: &[u8]) -> Option<u8> {
        let modulus = self.modulus_of(code[IDENTIFIER_PLACE - 1])?;
        Some(self.check_by(modulus, &self.under_the_check(code)))
    }

    /// The other 43 digits.
    fn under_the_check(&self, code: &[u8]) -> Vec<u8> {
        let (before, from_check) = code.split_at(CODE_CHECK_PLACE - 1);
        [before, &from_check[1..]].concat()
    }

    /// The check behind eleven digits of a code with this identifier.
    fn block_check(&self, identifier: u8, block: &[u8]) -> Option<u8> {
        let modulus = self.modulus_of(identifier)?;
        Some(self.check_by(modulus, block))
    }

    /// The line of a code, whose identifier is one. Neither product nor general
    /// check is tested, so that lines with exactly these faults can be made.
    fn code_line_of(&self, code: &[u8]) -> Vec<u8> {
        let identifier = code[IDENTIFIER_PLACE - 1];
        let blocks = code.chunks(DIGITS_OF_A_BLOCK);
        let blocks = blocks.flat_map(|block| {
            let check = self.block_check(identifier, block).unwrap_or(b'0');
            [block, &[check]].concat()
        });
        blocks.collect()
    }

    fn code_of_line(&self, line: &[u8]) -> Vec<u8> {
        let blocks = line.chunks(DIGITS_OF_A_BLOCK + 1);
        blocks
            .flat_map(|block| &block[..DIGITS_OF_A_BLOCK])
            .copied()
            .collect()
    }

    /// What converting a string into lent memory gives.
    fn code_converted(
        &self,
        conversion: CodeConversion,
        given: &[u8],
        mut memory: Vec<u8>,
    ) -> Answer {
        let verdict = self.code_verdict(conversion, given, memory.len());
        if verdict == Verdict::Accepted {
            let result = match conversion {
                CodeConversion::CodeToLine => self.code_line_of(given),
                CodeConversion::LineToCode => self.code_of_line(given),
            };
            self.write_result(&result, &mut memory);
        }
        Answer::with_memory(verdict, memory)
    }

    /// A number is given exactly when its row holds and no earlier one does.
    fn code_verdict(&self, conversion: CodeConversion, given: &[u8], room: usize) -> Verdict {
        let mut rows = self.code_rows(conversion).into_iter();
        let refusal = rows.find_map(|row| self.code_refusal(row, conversion, given, room));
        match refusal {
            Some((number, place)) => Verdict::Refused {
                number,
                line: 0,
                place,
            },
            None => Verdict::Accepted,
        }
    }

    fn code_rows(&self, conversion: CodeConversion) -> Vec<Row> {
        rows_in_order(conversion)
    }

    /// Number and place, if the row holds for this string and room.
    fn code_refusal(
        &self,
        row: Row,
        conversion: CodeConversion,
        given: &[u8],
        room: usize,
    ) -> Option<(u32, usize)> {
        match row {
            Row::Length => {
                let wrong = given.len() != conversion.given_digits();
                wrong.then_some((WRONG_DIGIT_COUNT, 0))
            }
            Row::NonDigit => {
                let before = given.iter().position(|byte| !byte.is_ascii_digit())?;
                Some((NON_DIGIT_IN_A_STRING, before + 1))
            }
            Row::Product => {
                let right = self.is_product(given[PRODUCT_PLACE - 1]);
                (!right).then_some((WRONG_PRODUCT, PRODUCT_PLACE))
            }
            Row::Identifier => {
                let modulus = self.modulus_of(given[IDENTIFIER_PLACE - 1]);
                modulus
                    .is_none()
                    .then_some((WRONG_IDENTIFIER, IDENTIFIER_PLACE))
            }
            Row::Block(block) => {
                let place = BLOCK_CHECK_PLACES[block];
                let digits = &given[place - 1 - DIGITS_OF_A_BLOCK..place - 1];
                let check = self.block_check(given[IDENTIFIER_PLACE - 1], digits)?;
                (check != given[place - 1]).then_some((WRONG_BLOCK_CHECK, place))
            }
            Row::General => {
                let code = match conversion {
                    CodeConversion::CodeToLine => given.to_vec(),
                    CodeConversion::LineToCode => self.code_of_line(given),
                };
                let wrong = self.code_check(&code)? != code[CODE_CHECK_PLACE - 1];
                wrong.then_some((WRONG_CODE_CHECK, CODE_CHECK_PLACE))
            }
            Row::Room => (room < conversion.result_digits()).then_some((OUTPUT_TOO_SHORT, 0)),
        }
    }
}

impl CodeRules for Paper {}
