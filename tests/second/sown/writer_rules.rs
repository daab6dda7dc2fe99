//! Mistakes about one call to the writer: its turn, its records, its limits and
//! the room that it asks for.

use super::collection_faults::CollectionFault;
use super::collection_turns;
use super::limits;
use super::record_rooms;
use super::registration_order;
use super::writer_faults::WriterFault;
use super::writer_order;
use super::Sown;
use crate::paper::file_state::{Batch, BatchKind, Stage, BATCH_KINDS};
use crate::paper::layout_table::{self as table, Entry, Field};
use crate::paper::lines::{LINE_BYTES, LINE_END, MOST_BATCHES};
use crate::paper::numbers::NON_DIGIT;
use crate::paper::record_kinds::{Direction, RecordKind};
use crate::paper::record_rules::{RecordRules, Refusal};
use crate::paper::totals::Totals;
use crate::paper::writer_calls::CallKind;
use crate::paper::writer_order::Row;
use crate::paper::writer_record_rules::{demanded_kind, GivenRecordRules};
use crate::paper::writer_rules::{Attempt, WriterRules};
use crate::paper::Paper;

impl GivenRecordRules for Sown {
    fn kind_is_right(&self, attempt: &Attempt, at: usize) -> bool {
        let fault = match self.writer_fault() {
            Some(fault) => fault,
            None => return self.kind_is_right_in_a_collection(attempt, at),
        };
        let given = attempt.kinds[at];
        match attempt.state.batch() {
            Some(batch) if attempt.call.kind == CallKind::Payment => {
                Paper.kind_is_right(attempt, at) || lets_pass(fault, attempt, batch, at)
            }
            _ => {
                let named = attempt.call.records[at].kind;
                given == named || fault != WriterFault::KindOfOnlyRecordTested
            }
        }
    }

    fn given_field_refusal(&self, attempt: &Attempt, at: usize, field: Field) -> Option<Refusal> {
        let draft = &attempt.drafts[at];
        let refusal = self.field_refusal(field, attempt.subject(at), draft)?;
        let wide = draft.too_wide.contains(&field);
        match (self.writer_fault(), field.entry) {
            (Some(WriterFault::WideDateIsEight), Entry::Date | Entry::Time) if wide => {
                Some((NON_DIGIT, field.first))
            }
            (Some(WriterFault::WideDomainIsEight), Entry::OneOf(_)) if wide => {
                Some((NON_DIGIT, field.first))
            }
            (Some(WriterFault::WideFormAtItsPlace), Entry::Service) if !wide => {
                let form = table::form_of(attempt.kinds[at])?;
                let form_wide = draft.too_wide.contains(&form);
                let half = if form_wide { form } else { field };
                Some((refusal.0, half.first))
            }
            _ => Some(refusal),
        }
    }
}

impl Sown {
    /// With a fault about O records, or as the paper has it.
    fn kind_is_right_in_a_collection(self, attempt: &Attempt, at: usize) -> bool {
        let right = Paper.kind_is_right(attempt, at);
        let (fault, batch) = match (self.collection_fault(), attempt.state.batch()) {
            (Some(fault), Some(batch)) if attempt.call.kind == CallKind::Payment => (fault, batch),
            _ => return right,
        };
        let given = attempt.kinds[at];
        let in_its_batch = batch.kind == BatchKind::Collection;
        if in_its_batch && given == RecordKind::Z {
            let direction = attempt.state.direction;
            return collection_turns::lets_z_pass(fault, direction, at).unwrap_or(right);
        }
        let alone = attempt.records() == 1 && fault == CollectionFault::SecondRecordDue;
        (right && !(alone && in_its_batch)) || collection_turns::is_taken(fault, batch.kind, given)
    }
}

/// A record of the wrong kind.
fn lets_pass(fault: WriterFault, attempt: &Attempt, batch: &Batch, at: usize) -> bool {
    let given = attempt.kinds[at];
    let demanded = demanded_kind(batch.kind, attempt.state.direction, at);
    match fault {
        WriterFault::OtherTypesTakenInPayments => given.segment().is_none(),
        WriterFault::BatchKindNotTested => {
            let mut others = BATCH_KINDS.into_iter().filter(|kind| *kind != batch.kind);
            others.any(|kind| kind.payment_kinds().get(at) == Some(&given))
        }
        WriterFault::KindKnownByItsSegment => {
            given.segment() == demanded.and_then(RecordKind::segment)
        }
        WriterFault::ZTakenInARemittance => {
            demanded_kind(batch.kind, Direction::Return, at) == Some(given)
        }
        _ => false,
    }
}

impl WriterRules for Sown {
    fn call_rows(&self, attempt: &Attempt) -> Vec<Row> {
        let mut rows = Paper.call_rows(attempt);
        if let Some(fault) = self.writer_fault() {
            writer_order::disturb(&mut rows, fault, attempt);
        }
        if let Some(fault) = self.registration_fault() {
            registration_order::disturb_call(&mut rows, fault);
        }
        if let Some(fault) = self.collection_fault() {
            collection_turns::disturb_call(&mut rows, fault);
        }
        rows
    }

    fn is_in_turn(&self, attempt: &Attempt) -> bool {
        let state = attempt.state;
        let taken = self.writer_fault().is_some_and(|fault| {
            match (fault, attempt.call.kind, &state.stage) {
                (WriterFault::FileOpenedAgain, CallKind::OpenFile, Stage::Ended) => true,
                (WriterFault::FileOpenedTwice, CallKind::OpenFile, stage) => {
                    !matches!(stage, Stage::Ended)
                }
                (WriterFault::BatchOpenedInABatch, CallKind::OpenBatch, Stage::InBatch(_))
                | (WriterFault::EmptyBatchClosed, CallKind::CloseBatch, Stage::InBatch(_))
                | (WriterFault::FileClosedInABatch, CallKind::CloseFile, Stage::InBatch(_))
                | (WriterFault::EmptyFileClosed, CallKind::CloseFile, Stage::BetweenBatches) => {
                    true
                }
                (WriterFault::EmptyLaterBatchClosed, CallKind::CloseBatch, Stage::InBatch(_)) => {
                    state.totals.payments() > 0
                }
                _ => false,
            }
        });
        let kept_open = self.writer_fault() == Some(WriterFault::BatchWithoutLivePaymentKeptOpen)
            && attempt.call.kind == CallKind::CloseBatch
            && state.batch().map(|batch| batch.totals.live.payments) == Some(0);
        (taken || Paper.is_in_turn(attempt)) && !kept_open
    }

    fn most_batches_written(&self) -> u64 {
        match self.writer_fault() {
            Some(WriterFault::BatchTooManyTaken) => MOST_BATCHES + 1,
            Some(WriterFault::LastBatchRefused) => MOST_BATCHES - 1,
            _ => Paper.most_batches_written(),
        }
    }

    fn payments_written(&self, batch: &Batch) -> u64 {
        match self.writer_limit_fault() {
            Some(fault) => limits::payments(fault, batch.totals),
            None => Paper.payments_written(batch),
        }
    }

    fn total_written(&self, totals: Totals) -> u128 {
        match self.writer_limit_fault() {
            Some(fault) => limits::cents(fault, totals),
            None => Paper.total_written(totals),
        }
    }

    fn details_behind(&self, pair: [Option<u64>; 2]) -> u64 {
        match self.record_room_fault() {
            Some(fault) => record_rooms::details(fault, pair),
            None => Paper.details_behind(pair),
        }
    }

    fn has_room(&self, attempt: &Attempt) -> bool {
        let left = attempt.lent.saturating_sub(attempt.cursor);
        let whole = attempt.records() * LINE_BYTES;
        let (left, asked) = match self.writer_fault() {
            Some(WriterFault::RoomFromTheStart) => (attempt.lent, whole),
            Some(WriterFault::RoomWrapsBehindTheOutput) => {
                (attempt.lent.wrapping_sub(attempt.cursor), whole)
            }
            Some(WriterFault::RoomOfOneRecord) => (left, LINE_BYTES),
            Some(WriterFault::RoomOfTwoRecords) => (left, whole.min(2 * LINE_BYTES)),
            Some(WriterFault::RoomWithoutLineEnd) => (left, whole - LINE_END.len()),
            Some(WriterFault::RoomOfOneByteMore) => (left, whole + 1),
            _ => return Paper.has_room(attempt),
        };
        left >= asked
    }
}
