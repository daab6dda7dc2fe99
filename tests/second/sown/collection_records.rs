//! Mistakes about the rules for the code of an O record.

use super::collection_faults::CollectionFault;
use super::Sown;
use crate::paper::collection_codes::{CodeConversion, CodeRules, Row, CODE_LINE_DIGITS};
use crate::paper::collection_rules::{CollectionRule, CollectionRules};
use crate::paper::numbers::{
    OUTSIDE_DOMAIN, WRONG_CENTS, WRONG_CHECK, WRONG_CODE_CHECK, WRONG_CURRENCY,
};
use crate::paper::places::{part, Part, AMOUNT_OF_O, BARCODE_CHECK, CODE, CODE_CHECK};
use crate::paper::record_kinds::{Direction, Subject};
use crate::paper::record_rules::{all_digits, Refusal};
use crate::paper::totals::Movement;
use crate::paper::Paper;

/// The value in the code of an O.
const CODE_VALUE: Part = part(22, 32);

impl CollectionRules for Sown {
    fn collection_refusal(
        &self,
        rule: CollectionRule,
        subject: Subject,
        record: &[u8],
    ) -> Option<Refusal> {
        if !all_digits(CODE.of(record)) {
            return None;
        }
        let fault = match self.collection_fault() {
            Some(fault) => fault,
            None => return Paper.collection_refusal(rule, subject, record),
        };
        if !is_tested(fault, subject, record) {
            return None;
        }
        let row = match rule {
            CollectionRule::Product => Row::Product,
            CollectionRule::Identifier => Row::Identifier,
            CollectionRule::GeneralCheck if fault == CollectionFault::CheckNotTested => {
                return None;
            }
            CollectionRule::GeneralCheck => Row::General,
        };
        let code = CODE.of(record);
        let refusal = self.code_refusal(row, CodeConversion::CodeToLine, code, CODE_LINE_DIGITS);
        let refusal = refusal.map(|refusal| named_in_a_record(fault, refusal));
        refusal.or_else(|| value_refusal(fault, rule, record))
    }
}

fn is_tested(fault: CollectionFault, subject: Subject, record: &[u8]) -> bool {
    match fault {
        CollectionFault::NotTestedInRemittances => subject.direction != Direction::Remittance,
        CollectionFault::NotTestedInReturns => subject.direction != Direction::Return,
        CollectionFault::WithdrawnNotTested => Movement::of(record) != Movement::Withdrawn,
        _ => true,
    }
}

/// A place in the code is one in the record, which a currency has a number for.
fn named_in_a_record(fault: CollectionFault, (number, place): Refusal) -> Refusal {
    let in_record = CODE.first - 1 + place;
    match (fault, number) {
        (CollectionFault::CurrencyAsked, WRONG_CURRENCY) => (OUTSIDE_DOMAIN, CODE_CHECK.first),
        (CollectionFault::WrongCheckIs16, WRONG_CODE_CHECK) => (WRONG_CHECK, in_record),
        (CollectionFault::CheckNamedAtTheBoletosPlace, WRONG_CODE_CHECK) => {
            (number, BARCODE_CHECK.first)
        }
        (CollectionFault::NamedByThePlaceInTheCode, _) => (number, place),
        (CollectionFault::NamedAtTheField, _) => (number, CODE.first),
        _ => (number, in_record),
    }
}

/// As if a value other than 0 had to be the amount.
fn value_refusal(fault: CollectionFault, rule: CollectionRule, record: &[u8]) -> Option<Refusal> {
    let compared =
        fault == CollectionFault::ValueAgainstTheAmount && rule == CollectionRule::GeneralCheck;
    let value = CODE_VALUE.number(record);
    let wrong = compared && value != 0 && value != AMOUNT_OF_O.number(record);
    wrong.then_some((WRONG_CENTS, CODE_VALUE.first))
}
