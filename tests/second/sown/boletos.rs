//! Mistakes about the fields of a J record.

use super::faults::Fault;
use super::Sown;
use crate::paper::boleto_rules::BoletoRules;
use crate::paper::due_factors::DAYS_OF_A_ROUND;
use crate::paper::places::{AMOUNT_OF_J, BARCODE_CENTS, DISCOUNT, FINE, NOMINAL};
use crate::paper::Paper;

const TEN_DIGITS: u64 = 10_000_000_000;
const FIRST_LONG_FACTOR: u64 = 1_000;

impl BoletoRules for Sown {
    fn factor_is_right(&self, factor: u64, own: Option<u64>) -> bool {
        let right = Paper.factor_is_right(factor, own);
        match self.fault {
            Fault::SmallFactorsNotCounted => right || factor < FIRST_LONG_FACTOR,
            Fault::FactorsComparedModulo9000 => {
                let round = u64::from(DAYS_OF_A_ROUND);
                right || own.map(|own| own % round) == Some(factor % round)
            }
            _ => right,
        }
    }

    fn cents_are_right(&self, line: &[u8]) -> bool {
        match self.fault {
            Fault::CentsAgainstTenDigits => {
                let cents = BARCODE_CENTS.number(line);
                cents == 0 || cents == NOMINAL.number(line) % TEN_DIGITS
            }
            _ => Paper.cents_are_right(line),
        }
    }

    fn equation_holds(&self, line: &[u8]) -> bool {
        match self.fault {
            Fault::DiscountAdded => {
                let [nominal, discount, fine, amount] =
                    [NOMINAL, DISCOUNT, FINE, AMOUNT_OF_J].map(|part| part.number(line));
                amount == nominal + discount + fine
            }
            _ => Paper.equation_holds(line),
        }
    }
}
