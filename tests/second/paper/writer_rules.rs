//! The tests of one call to the writer. What a call may be depends on the calls
//! accepted before it, and on no byte of the output.

use super::file_state::{Batch, Stage, State};
use super::layout_table::{self as table, Entry};
use super::lines::{CENTS_LIMIT, LINE_BYTES, MOST_BATCHES, MOST_PAYMENTS};
use super::numbers::TOTAL_TOO_LARGE;
use super::numbers::{OUTPUT_TOO_SHORT, OUT_OF_TURN, OVER_A_LIMIT, TOO_MANY_RECORDS};
use super::places::{self, SEGMENT, TYPE};
use super::record_kinds::RecordKind;
use super::record_rules::{Draft, Refusal};
use super::totals::{Movement, Totals};
use super::writer_calls::{CallKind, WriterCall};
use super::writer_fill::Filling;
use super::writer_order::{rows_in_order, Row};
use super::writer_record_rules::GivenRecordRules;
use super::Paper;

const MOST_RECORDS: u64 = 999_999;
/// Two trailers have to find room behind every payment, and behind a batch header
/// details too: one where it opens a batch of O records, and else two.
const RECORDS_BEHIND_A_PAYMENT: u64 = 2;
const ONE_DETAIL: u64 = 1;
const TWO_DETAILS: u64 = 2;
const COLLECTION_PAIR: [Option<u64>; 2] = [Some(29), Some(11)];

/// A call that is made: what it is, and what it meets.
pub struct Attempt<'a> {
    pub state: &'a State,
    pub call: &'a WriterCall,
    pub kinds: &'a [RecordKind],
    /// The records as they would be written.
    pub drafts: &'a [Draft],
    /// The place reached in the output, and the part of it that is lent.
    pub cursor: usize,
    pub lent: usize,
}

impl Attempt<'_> {
    pub fn records(&self) -> usize {
        self.kinds.len()
    }

    /// Of all payments so far with this one; other calls bring none.
    pub fn totals(&self) -> Totals {
        let mut totals = self.state.totals;
        if let Some(batch) = self.state.batch() {
            totals.add(batch.totals);
        }
        let amount = self.kinds.first().and_then(|kind| places::amount(*kind));
        if let Some(amount) = amount {
            let first = &self.drafts[0].bytes;
            totals.add_payment(Movement::of(first), amount.number(first));
        }
        totals
    }

    /// The numbers given for service and form, of a call that opens a batch.
    pub fn given_pair(&self) -> [Option<u64>; 2] {
        [Entry::Service, Entry::Form].map(|entry| {
            let fields = table::fields(self.kinds[0]).into_iter();
            let mut given = fields.zip(&self.call.records[0].values.numbers);
            let half = given.find(|(field, _)| field.entry == entry);
            half.and_then(|(_, number)| *number)
        })
    }

    /// The first line the call would have written, or the line of the record
    /// with the fault.
    pub fn line(&self, row: Row) -> u64 {
        self.state.accepted_lines + 1 + row.record().unwrap_or(0) as u64
    }
}

pub trait WriterRules: GivenRecordRules + Filling {
    /// The rows that hold for the call, in order: the first is the answer.
    fn call_refusals<'a>(
        &'a self,
        attempt: &'a Attempt,
    ) -> impl Iterator<Item = (Row, Refusal)> + 'a {
        let rows = self.call_rows(attempt).into_iter();
        rows.filter_map(|row| Some((row, self.call_refusal(row, attempt)?)))
    }

    fn call_rows(&self, attempt: &Attempt) -> Vec<Row> {
        rows_in_order(attempt.kinds)
    }

    fn call_refusal(&self, row: Row, attempt: &Attempt) -> Option<Refusal> {
        match row {
            Row::Turn => (!self.is_in_turn(attempt)).then_some((OUT_OF_TURN, 0)),
            Row::Limit => self.limit_refusal(attempt),
            Row::RecordLimit => {
                let over = self.passes_record_limit(attempt);
                over.then_some((TOO_MANY_RECORDS, 0))
            }
            Row::Bytes(at) => self.byte_refusal(&attempt.drafts[at].bytes),
            Row::Segment(at) => self.given_segment_refusal(attempt, at),
            Row::Field(at, field) => self.given_field_refusal(attempt, at, field),
            Row::Registration(at, field) => {
                self.registration_refusal(field, attempt.subject(at), &attempt.drafts[at].bytes)
            }
            Row::Boleto(at, rule) => self.given_boleto_refusal(&attempt.drafts[at], rule),
            Row::Collection(at, rule) => {
                self.collection_refusal(rule, attempt.subject(at), &attempt.drafts[at].bytes)
            }
            Row::Total => {
                let total = self.total_written(attempt.totals());
                (total >= CENTS_LIMIT).then_some((TOTAL_TOO_LARGE, 0))
            }
            Row::Room => (!self.has_room(attempt)).then_some((OUTPUT_TOO_SHORT, 0)),
        }
    }

    /// Closing a batch with no payment or a file with no batch is out of turn.
    fn is_in_turn(&self, attempt: &Attempt) -> bool {
        match (attempt.call.kind, &attempt.state.stage) {
            (CallKind::OpenFile, Stage::Start) => true,
            (CallKind::OpenBatch, Stage::BetweenBatches) => true,
            (CallKind::Payment, Stage::InBatch(_)) => true,
            (CallKind::CloseBatch, Stage::InBatch(batch)) => batch.totals.payments() > 0,
            (CallKind::CloseFile, Stage::BetweenBatches) => attempt.state.batches > 0,
            _ => false,
        }
    }

    fn limit_refusal(&self, attempt: &Attempt) -> Option<Refusal> {
        let state = attempt.state;
        let (over, part) = match attempt.call.kind {
            CallKind::OpenBatch => (state.batches >= self.most_batches_written(), TYPE),
            CallKind::Payment => {
                let payments = self.payments_written(state.batch()?);
                (payments >= MOST_PAYMENTS, SEGMENT)
            }
            _ => return None,
        };
        over.then_some((OVER_A_LIMIT, part.first))
    }

    fn most_batches_written(&self) -> u64 {
        MOST_BATCHES
    }

    /// Live and withdrawn ones together.
    fn payments_written(&self, batch: &Batch) -> u64 {
        batch.totals.payments()
    }

    /// The cents of live and withdrawn payments together.
    fn total_written(&self, totals: Totals) -> u128 {
        totals.cents()
    }

    /// The records that have to find room behind those of the call.
    fn passes_record_limit(&self, attempt: &Attempt) -> bool {
        let behind = match attempt.call.kind {
            CallKind::OpenBatch => {
                self.details_behind(attempt.given_pair()) + RECORDS_BEHIND_A_PAYMENT
            }
            CallKind::Payment => RECORDS_BEHIND_A_PAYMENT,
            _ => return false,
        };
        attempt.state.accepted_lines + attempt.records() as u64 + behind > MOST_RECORDS
    }

    /// Service and form are taken as they are given: they are not tested yet.
    fn details_behind(&self, pair: [Option<u64>; 2]) -> u64 {
        match pair {
            COLLECTION_PAIR => ONE_DETAIL,
            _ => TWO_DETAILS,
        }
    }

    /// From the place reached, which may lie behind all that is lent.
    fn has_room(&self, attempt: &Attempt) -> bool {
        let left = attempt.lent.saturating_sub(attempt.cursor);
        left >= attempt.records() * LINE_BYTES
    }
}

impl WriterRules for Paper {}
