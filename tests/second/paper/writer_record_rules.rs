//! The tests of the records that a call gives to the writer: bytes, kind,
//! fields, and the rules for boletos and for collection codes.

use super::boleto_rules::{BoletoRule, BoletoRules};
use super::collection_rules::CollectionRules;
use super::file_state::BatchKind;
use super::layout_table::Field;
use super::numbers::WRONG_SEGMENT;
use super::places::{BARCODE, SEGMENT};
use super::record_kinds::{Direction, RecordKind, Subject};
use super::record_rules::{all_digits, Draft, RecordRules, Refusal};
use super::writer_calls::CallKind;
use super::writer_rules::Attempt;
use super::Paper;

pub trait GivenRecordRules: RecordRules + BoletoRules + CollectionRules {
    fn given_segment_refusal(&self, attempt: &Attempt, at: usize) -> Option<Refusal> {
        let right = self.kind_is_right(attempt, at);
        (!right).then_some((WRONG_SEGMENT, SEGMENT.first))
    }

    /// Only the records of a payment can be of the wrong kind.
    fn kind_is_right(&self, attempt: &Attempt, at: usize) -> bool {
        match attempt.state.batch() {
            Some(batch) if attempt.call.kind == CallKind::Payment => {
                let demanded = demanded_kind(batch.kind, attempt.state.direction, at);
                demanded == Some(attempt.kinds[at])
            }
            _ => true,
        }
    }

    fn given_field_refusal(&self, attempt: &Attempt, at: usize, field: Field) -> Option<Refusal> {
        self.field_refusal(field, attempt.subject(at), &attempt.drafts[at])
    }

    /// The rules are about digits; without them a row before has refused.
    fn given_boleto_refusal(&self, draft: &Draft, rule: BoletoRule) -> Option<Refusal> {
        if !all_digits(BARCODE.of(&draft.bytes)) {
            return None;
        }
        self.boleto_refusal(rule, &draft.bytes)
    }
}

impl GivenRecordRules for Paper {}

impl Attempt<'_> {
    /// What one record of the call is tested as.
    pub fn subject(&self, at: usize) -> Subject {
        Subject {
            kind: self.kinds[at],
            direction: self.state.direction,
        }
    }
}

/// Nothing where no record may stand: a remittance has no Z, and a return has one
/// right behind the payment's own records.
pub fn demanded_kind(batch: BatchKind, direction: Direction, at: usize) -> Option<RecordKind> {
    let own = batch.payment_kinds();
    let may_have_z = direction == Direction::Return && at == own.len();
    own.get(at).copied().or(may_have_z.then_some(RecordKind::Z))
}
