//! Mistakes about the fields of an O record, and about service and form of its
//! batches.

use super::collection_faults::CollectionFault;
use crate::paper::layout_table::{Entry, Field, BOLETO_FORMS, COLLECTION_FORM, COLLECTION_SERVICE};
use crate::paper::layout_table::{CREDIT_FORMS, CREDIT_SERVICE};
use crate::paper::numbers::NON_DIGIT;
use crate::paper::record_kinds::{Direction, RecordKind, Subject};
use crate::paper::record_rules::{all_blank, Refusal};

const NAME: usize = 62;
const DUE_DATE: usize = 92;
const PAYMENT_DATE: usize = 100;
const OUR_NUMBER: usize = 123;
const BANKS_NUMBER: usize = 143;
const MIDDLE: usize = 163;

/// Whether a field is right by mistake, or wrong; nothing where the paper decides.
pub fn is_right(
    fault: CollectionFault,
    field: Field,
    subject: Subject,
    content: &[u8],
) -> Option<bool> {
    if subject.kind != RecordKind::O {
        return None;
    }
    let text = content[0] != b' ' || all_blank(content);
    let reserved = field.entry == Entry::BlankInRemittance;
    match (fault, field.first) {
        (CollectionFault::MovementNotTested, 15)
        | (CollectionFault::NameMayBeginWithABlank, NAME)
        | (CollectionFault::DueDateNotTested, DUE_DATE)
        | (CollectionFault::PaymentDateNotTested, PAYMENT_DATE)
        | (CollectionFault::OurNumberMayBeginWithABlank, OUR_NUMBER)
        | (CollectionFault::MiddleFree | CollectionFault::MiddleOfTheCaller, MIDDLE) => Some(true),
        (CollectionFault::BanksNumberIsAText, BANKS_NUMBER) => Some(text),
        (CollectionFault::ReservedFreeInRemittances, _) if reserved => Some(true),
        (CollectionFault::ReservedBlankInReturns, _) if reserved => Some(all_blank(content)),
        _ => None,
    }
}

/// What a refusal of the code as a field names.
pub fn non_digit(fault: CollectionFault, field: Field, content: &[u8]) -> Option<Refusal> {
    let before = content.iter().position(|byte| !byte.is_ascii_digit())?;
    let named = fault == CollectionFault::NonDigitNamedWhereItStands;
    named.then_some((NON_DIGIT, field.first + before))
}

/// Whether the text of the caller stands in a field that is filled.
pub fn keeps_text(fault: CollectionFault, kind: RecordKind, field: Field) -> bool {
    fault == CollectionFault::MiddleOfTheCaller && kind == RecordKind::O && field.first == MIDDLE
}

/// Whether a pair is one by mistake, or none; nothing where the paper decides.
pub fn is_pair(
    fault: CollectionFault,
    [service, form]: [&[u8]; 2],
    direction: Direction,
) -> Option<bool> {
    let own = [service, form] == [COLLECTION_SERVICE, COLLECTION_FORM];
    let taken = match fault {
        CollectionFault::PairOnlyInRemittances if own => {
            return Some(direction == Direction::Remittance);
        }
        CollectionFault::PairOnlyInReturns if own => return Some(direction == Direction::Return),
        CollectionFault::Form10Taken => {
            service == COLLECTION_SERVICE && CREDIT_FORMS.contains(&form)
        }
        CollectionFault::Form30Taken => {
            service == COLLECTION_SERVICE && BOLETO_FORMS.contains(&form)
        }
        CollectionFault::Service20Taken => service == CREDIT_SERVICE && form == COLLECTION_FORM,
        CollectionFault::Service22Taken => service == b"22" && form == COLLECTION_FORM,
        CollectionFault::Service03Taken => {
            service == direction.boleto_service() && form == COLLECTION_FORM
        }
        _ => false,
    };
    taken.then_some(true)
}
