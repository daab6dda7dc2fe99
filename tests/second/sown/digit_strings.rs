//! Mistakes about boleto digit strings.

use super::faults::Fault;
use super::order::move_before;
use super::Sown;
use crate::paper::answers::Verdict;
use crate::paper::digit_strings::{Conversion, DigitRules, Part, Row};
use crate::paper::digit_strings::{BARCODE_CHECK_PLACE, HEAVIEST_WEIGHT};
use crate::paper::numbers::{NON_DIGIT_IN_A_STRING, WRONG_GENERAL_CHECK};
use crate::paper::Paper;

impl DigitRules for Sown {
    fn heaviest_weight(&self) -> u32 {
        HEAVIEST_WEIGHT - u32::from(self.has(Fault::WeightsStopAtEight))
    }

    fn check_of_remainder(&self, remainder: u32) -> u8 {
        match remainder {
            0 | 1 if self.has(Fault::RemainderZeroOrOneGivesZero) => b'0',
            _ => Paper.check_of_remainder(remainder),
        }
    }

    fn counted(&self, product: u32) -> u32 {
        match self.fault {
            Fault::ProductDigitsNotAdded => product,
            _ => Paper.counted(product),
        }
    }

    fn free_of_barcode(&self) -> [Part; 3] {
        self.in_conversion_order(Paper.free_of_barcode())
    }

    fn free_of_line(&self) -> [Part; 3] {
        self.in_conversion_order(Paper.free_of_line())
    }

    fn write_result(&self, result: &[u8], memory: &mut [u8]) {
        let missing = usize::from(self.has(Fault::OneByteTooFew));
        let (written, behind) = memory.split_at_mut(result.len() - missing);
        written.copy_from_slice(&result[..written.len()]);
        if self.has(Fault::ClearedBehindTheResult) {
            behind.fill(0);
        }
    }

    fn digit_rows(&self, conversion: Conversion) -> Vec<Row> {
        let mut rows = Paper.digit_rows(conversion);
        let moves: &[(Row, Row)] = match self.fault {
            Fault::NonDigitBeforeLength => &[(Row::NonDigit, Row::Length)],
            Fault::CurrencyBeforeNonDigit => &[(Row::Currency, Row::NonDigit)],
            Fault::GeneralCheckBeforeFields => &[(Row::General, Row::Field(0))],
            Fault::RoomFirst => &[(Row::Room, Row::Length)],
            Fault::FieldsFromTheRight => &[
                (Row::Field(1), Row::Field(0)),
                (Row::Field(2), Row::Field(1)),
            ],
            _ => &[],
        };
        for (moved, other) in moves {
            move_before(&mut rows, *moved, *other);
        }
        rows
    }
}

impl Sown {
    fn in_conversion_order(self, [first, second, third]: [Part; 3]) -> [Part; 3] {
        match self.fault {
            Fault::FieldsTwoAndThreeSwapped => [first, third, second],
            _ => [first, second, third],
        }
    }

    /// The place that a refusal of a digit string names.
    pub fn named_in_a_string(self, verdict: Verdict) -> Verdict {
        let (number, line, place) = match verdict {
            Verdict::Refused {
                number,
                line,
                place,
            } => (number, line, place),
            Verdict::Accepted => return verdict,
        };
        let place = match (self.fault, number) {
            (Fault::NonDigitCountedFromZero, NON_DIGIT_IN_A_STRING) => place - 1,
            (Fault::LineGeneralCheckAtFive, WRONG_GENERAL_CHECK) => BARCODE_CHECK_PLACE,
            _ => place,
        };
        Verdict::Refused {
            number,
            line,
            place,
        }
    }
}
