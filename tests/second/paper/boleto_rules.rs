//! The rules that bind the fields of a J record to each other: the barcode's
//! own check, and the house rules of document 01.

use super::digit_strings::DigitRules;
use super::due_factors::DueFactors;
use super::numbers::{WRONG_AMOUNT, WRONG_CENTS, WRONG_CHECK, WRONG_DUE_DATE};
use super::places::{AMOUNT_OF_J, BARCODE, BARCODE_CENTS, BARCODE_CHECK, DISCOUNT, DUE};
use super::places::{FACTOR, FINE, NOMINAL};
use super::record_rules::Refusal;
use super::Paper;

#[derive(Clone, Copy, PartialEq, Eq)]
pub enum BoletoRule {
    GeneralCheck,
    DueDate,
    Cents,
    Equation,
}

/// In the order in which they are tested.
pub const BOLETO_RULES: [BoletoRule; 4] = [
    BoletoRule::GeneralCheck,
    BoletoRule::DueDate,
    BoletoRule::Cents,
    BoletoRule::Equation,
];

pub trait BoletoRules: DigitRules + DueFactors {
    /// The line is a J whose fields are right each for itself.
    fn boleto_refusal(&self, rule: BoletoRule, line: &[u8]) -> Option<Refusal> {
        let (right, number, part) = match rule {
            BoletoRule::GeneralCheck => (self.check_is_right(line), WRONG_CHECK, BARCODE_CHECK),
            BoletoRule::DueDate => (self.due_date_is_right(line), WRONG_DUE_DATE, FACTOR),
            BoletoRule::Cents => (self.cents_are_right(line), WRONG_CENTS, BARCODE_CENTS),
            BoletoRule::Equation => (self.equation_holds(line), WRONG_AMOUNT, AMOUNT_OF_J),
        };
        (!right).then_some((number, part.first))
    }

    fn check_is_right(&self, line: &[u8]) -> bool {
        [self.general_check(BARCODE.of(line))] == BARCODE_CHECK.of(line)
    }

    fn due_date_is_right(&self, line: &[u8]) -> bool {
        let own = self.factor_of(DUE.of(line)).map(u64::from);
        self.factor_is_right(FACTOR.number(line), own)
    }

    /// Factor 0 means no due date; any other is the one of the due date.
    fn factor_is_right(&self, factor: u64, own: Option<u64>) -> bool {
        factor == 0 || Some(factor) == own
    }

    /// Cents 0 mean no amount in the barcode.
    fn cents_are_right(&self, line: &[u8]) -> bool {
        let cents = BARCODE_CENTS.number(line);
        cents == 0 || cents == NOMINAL.number(line)
    }

    /// With the discount on the amount's side no difference falls below zero.
    fn equation_holds(&self, line: &[u8]) -> bool {
        let [nominal, discount, fine, amount] =
            [NOMINAL, DISCOUNT, FINE, AMOUNT_OF_J].map(|part| part.number(line));
        amount + discount == nominal + fine
    }
}

impl BoletoRules for Paper {}
