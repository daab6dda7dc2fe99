//! Boleto digit strings as document 01 describes them: the two checks, the two
//! conversions, and the answer to each string and room.

use super::answers::{Answer, Verdict};
use super::numbers::{NON_DIGIT_IN_A_STRING, OUTPUT_TOO_SHORT, WRONG_CURRENCY};
use super::numbers::{WRONG_DIGIT_COUNT, WRONG_FIELD_CHECK, WRONG_GENERAL_CHECK};
use super::Paper;

pub const BARCODE_DIGITS: usize = 44;
pub const LINE_DIGITS: usize = 47;

pub const CURRENCY_PLACE: usize = 4;
pub const CURRENCY: u8 = b'9';
pub const BARCODE_CHECK_PLACE: usize = 5;
pub const LINE_CHECK_PLACE: usize = 33;
pub const FIELD_CHECK_PLACES: [usize; 3] = [10, 21, 32];

const GENERAL_MODULUS: u32 = 11;
const LIGHTEST_WEIGHT: u32 = 2;
pub const HEAVIEST_WEIGHT: u32 = 9;
const FIELD_WEIGHTS: [u32; 2] = [2, 1];
const TEN: u32 = 10;

/// Places of a digit string, counted from 1, both ends included.
#[derive(Clone, Copy)]
pub struct Part {
    first: usize,
    last: usize,
}

const fn part(first: usize, last: usize) -> Part {
    Part { first, last }
}

impl Part {
    fn of(self, string: &[u8]) -> &[u8] {
        &string[self.first - 1..self.last]
    }
}

/// Bank and currency stand at the same places in both strings.
const BANK_AND_CURRENCY: Part = part(1, CURRENCY_PLACE);
const BARCODE_FACTOR_AND_CENTS: Part = part(6, 19);
const LINE_FACTOR_AND_CENTS: Part = part(34, LINE_DIGITS);
/// The free digits 1-5, 6-15 and 16-25.
const BARCODE_FREE: [Part; 3] = [part(20, 24), part(25, 34), part(35, BARCODE_DIGITS)];
const LINE_FREE: [Part; 3] = [part(5, 9), part(11, 20), part(22, 31)];
/// The digits each field check covers.
const LINE_FIELDS: [Part; 3] = [part(1, 9), part(11, 20), part(22, 31)];

#[derive(Clone, Copy, PartialEq, Eq)]
pub enum Conversion {
    BarcodeToLine,
    LineToBarcode,
}

impl Conversion {
    pub fn given_digits(self) -> usize {
        match self {
            Conversion::BarcodeToLine => BARCODE_DIGITS,
            Conversion::LineToBarcode => LINE_DIGITS,
        }
    }

    pub fn result_digits(self) -> usize {
        match self {
            Conversion::BarcodeToLine => LINE_DIGITS,
            Conversion::LineToBarcode => BARCODE_DIGITS,
        }
    }

    /// Where the given string holds its general check.
    pub fn check_place(self) -> usize {
        match self {
            Conversion::BarcodeToLine => BARCODE_CHECK_PLACE,
            Conversion::LineToBarcode => LINE_CHECK_PLACE,
        }
    }
}

/// A row of document 01's numbers that can refuse a digit string.
#[derive(Clone, Copy, PartialEq, Eq)]
pub enum Row {
    Length,
    NonDigit,
    Currency,
    Field(usize),
    General,
    Room,
}

/// In the order in which they are tested.
fn rows_in_order(conversion: Conversion) -> Vec<Row> {
    let mut rows = vec![Row::Length, Row::NonDigit, Row::Currency];
    if conversion == Conversion::LineToBarcode {
        rows.extend([Row::Field(0), Row::Field(1), Row::Field(2)]);
    }
    rows.extend([Row::General, Row::Room]);
    rows
}

pub trait DigitRules {
    fn heaviest_weight(&self) -> u32 {
        HEAVIEST_WEIGHT
    }

    /// The weighted sum modulo 11 over all digits but the check itself.
    fn general_remainder(&self, barcode: &[u8]) -> u32 {
        let (before_check, from_check) = barcode.split_at(BARCODE_CHECK_PLACE - 1);
        let others_from_the_right = before_check.iter().chain(&from_check[1..]).rev();
        let weights = (LIGHTEST_WEIGHT..=self.heaviest_weight()).cycle();
        let sum: u32 = others_from_the_right
            .zip(weights)
            .map(|(digit, weight)| value(*digit) * weight)
            .sum();
        sum % GENERAL_MODULUS
    }

    /// The digit that belongs at the general check's place, whatever stands there.
    fn general_check(&self, barcode: &[u8]) -> u8 {
        self.check_of_remainder(self.general_remainder(barcode))
    }

    fn check_of_remainder(&self, remainder: u32) -> u8 {
        match remainder {
            0 | 1 | 10 => b'1',
            _ => digit(GENERAL_MODULUS - remainder),
        }
    }

    /// The check digit of a field of the digit line.
    fn field_check(&self, field: &[u8]) -> u8 {
        let weights = FIELD_WEIGHTS.into_iter().cycle();
        let products = field
            .iter()
            .rev()
            .zip(weights)
            .map(|(digit, weight)| value(*digit) * weight);
        let sum: u32 = products.map(|product| self.counted(product)).sum();
        digit((TEN - sum % TEN) % TEN)
    }

    /// The digits of each product are added.
    fn counted(&self, product: u32) -> u32 {
        product / TEN + product % TEN
    }

    /// The free digits of a barcode in the order of the line's fields.
    fn free_of_barcode(&self) -> [Part; 3] {
        BARCODE_FREE
    }

    /// The free digits of a line in the order of the barcode.
    fn free_of_line(&self) -> [Part; 3] {
        LINE_FREE
    }

    /// The line of a barcode; neither currency nor general check is tested, so
    /// that lines with exactly these faults can be made as cases.
    fn line_of(&self, barcode: &[u8]) -> Vec<u8> {
        let mut line = BANK_AND_CURRENCY.of(barcode).to_vec();
        for (field, free_part) in LINE_FIELDS.into_iter().zip(self.free_of_barcode()) {
            line.extend_from_slice(free_part.of(barcode));
            let check = self.field_check(field.of(&line));
            line.push(check);
        }
        line.push(barcode[BARCODE_CHECK_PLACE - 1]);
        line.extend_from_slice(BARCODE_FACTOR_AND_CENTS.of(barcode));
        line
    }

    fn barcode_of(&self, line: &[u8]) -> Vec<u8> {
        let mut barcode = BANK_AND_CURRENCY.of(line).to_vec();
        barcode.push(line[LINE_CHECK_PLACE - 1]);
        barcode.extend_from_slice(LINE_FACTOR_AND_CENTS.of(line));
        for free_part in self.free_of_line() {
            barcode.extend_from_slice(free_part.of(line));
        }
        barcode
    }

    /// What converting a string into lent memory gives.
    fn converted(&self, conversion: Conversion, given: &[u8], mut memory: Vec<u8>) -> Answer {
        let verdict = self.digit_verdict(conversion, given, memory.len());
        if verdict == Verdict::Accepted {
            let result = match conversion {
                Conversion::BarcodeToLine => self.line_of(given),
                Conversion::LineToBarcode => self.barcode_of(given),
            };
            self.write_result(&result, &mut memory);
        }
        Answer::with_memory(verdict, memory)
    }

    /// The first bytes are written, the rest is kept.
    fn write_result(&self, result: &[u8], memory: &mut [u8]) {
        memory[..result.len()].copy_from_slice(result);
    }

    /// A number is given exactly when its row holds and no earlier one does.
    fn digit_verdict(&self, conversion: Conversion, given: &[u8], room: usize) -> Verdict {
        let mut rows = self.digit_rows(conversion).into_iter();
        let refusal = rows.find_map(|row| self.digit_refusal(row, conversion, given, room));
        match refusal {
            Some((number, place)) => Verdict::Refused {
                number,
                line: 0,
                place,
            },
            None => Verdict::Accepted,
        }
    }

    fn digit_rows(&self, conversion: Conversion) -> Vec<Row> {
        rows_in_order(conversion)
    }

    /// Number and place, if the row holds for this string and room.
    fn digit_refusal(
        &self,
        row: Row,
        conversion: Conversion,
        given: &[u8],
        room: usize,
    ) -> Option<(u32, usize)> {
        match row {
            Row::Length => {
                let wrong = given.len() != conversion.given_digits();
                wrong.then_some((WRONG_DIGIT_COUNT, 0))
            }
            Row::NonDigit => {
                let before = given.iter().position(|byte| !byte.is_ascii_digit())?;
                Some((NON_DIGIT_IN_A_STRING, before + 1))
            }
            Row::Currency => {
                let wrong = given[CURRENCY_PLACE - 1] != CURRENCY;
                wrong.then_some((WRONG_CURRENCY, CURRENCY_PLACE))
            }
            Row::Field(field) => {
                let place = FIELD_CHECK_PLACES[field];
                let check = self.field_check(LINE_FIELDS[field].of(given));
                (check != given[place - 1]).then_some((WRONG_FIELD_CHECK, place))
            }
            Row::General => {
                let barcode = match conversion {
                    Conversion::BarcodeToLine => given.to_vec(),
                    Conversion::LineToBarcode => self.barcode_of(given),
                };
                let wrong = self.general_check(&barcode) != barcode[BARCODE_CHECK_PLACE - 1];
                wrong.then_some((WRONG_GENERAL_CHECK, conversion.check_place()))
            }
            Row::Room => (room < conversion.result_digits()).then_some((OUTPUT_TOO_SHORT, 0)),
        }
    }
}

impl DigitRules for Paper {}

fn value(digit: u8) -> u32 {
    u32::from(digit - b'0')
}

fn digit(value: u32) -> u8 {
    b'0' + value as u8
}
