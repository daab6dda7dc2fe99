//! Mistakes about one line of a file.

use super::collection_faults::CollectionFault;
use super::collection_turns;
use super::faults::Fault;
use super::limits;
use super::order::move_before;
use super::registration_order;
use super::Sown;
use crate::paper::boleto_rules::BoletoRule;
use crate::paper::file_state::{Batch, BatchKind, Last, State};
use crate::paper::line_order::Row;
use crate::paper::line_rules::{detail_by_place, LineRules};
use crate::paper::lines::CENTS_LIMIT;
use crate::paper::numbers::NON_DIGIT;
use crate::paper::places::{Part, BANK, BATCH_SUM, FILE_BATCHES, J52_MARK, SEGMENT};
use crate::paper::record_kinds::{Direction, RecordKind};
use crate::paper::record_rules::{all_digits, Refusal};
use crate::paper::Paper;

const MARK_OF_J52: &[u8] = b"52";

/// The records of so many payments, without a Z behind any.
pub fn records_of(batch: &Batch, payments: u64) -> u64 {
    batch.kind.payment_kinds().len() as u64 * payments
}

impl LineRules for Sown {
    fn line_rows(&self, kind: Option<RecordKind>) -> Vec<Row> {
        let mut rows = Paper.line_rows(kind);
        if self.has(Fault::CountsBehindFields) {
            move_counts(&mut rows);
        }
        if let Some((moved, other)) = self.row_moved(&rows) {
            move_before(&mut rows, moved, other);
        }
        if let Some(fault) = self.registration_fault() {
            registration_order::disturb_line(&mut rows, fault);
        }
        if let Some(fault) = self.collection_fault() {
            collection_turns::disturb_line(&mut rows, fault);
        }
        rows
    }

    fn may_end(&self, state: &State) -> bool {
        Paper.may_end(state) || self.has(Fault::FileWithoutBatchTaken)
    }

    fn may_close(&self, batch: &Batch) -> bool {
        let empty_taken = self.has(Fault::BatchWithoutPaymentTaken) && batch.last == Last::Header;
        let live_asked = self.has(Fault::BatchWithoutLivePaymentRefused);
        let kept_open = live_asked && batch.totals.live.payments == 0;
        let second_due = self.collection_fault() == Some(CollectionFault::SecondRecordDue)
            && batch.kind == BatchKind::Collection
            && batch.details % 2 == 1;
        (Paper.may_close(batch) || empty_taken) && !kept_open && !second_due
    }

    fn detail_here(&self, state: &State, batch: &Batch, line: &[u8]) -> RecordKind {
        if SEGMENT.of(line) == b"Z" && self.may_have_z(state, batch) {
            return RecordKind::Z;
        }
        if self.has(Fault::J52KnownByItsBytes) && batch.kind == BatchKind::Boleto {
            let marked = J52_MARK.of(line) == MARK_OF_J52;
            return if marked {
                RecordKind::J52
            } else {
                RecordKind::J
            };
        }
        let fault = self.collection_fault();
        let taken =
            fault.and_then(|fault| collection_turns::taken_here(fault, batch, SEGMENT.of(line)));
        taken.unwrap_or_else(|| detail_by_place(batch))
    }

    fn may_stand_here(&self, kind: RecordKind, batch: &Batch) -> bool {
        let fault = self.collection_fault();
        let taken = fault.is_some_and(|fault| collection_turns::is_taken(fault, batch.kind, kind));
        taken || Paper.may_stand_here(kind, batch)
    }

    fn may_have_z(&self, state: &State, batch: &Batch) -> bool {
        let fault = self.collection_fault();
        let mistaken = fault.and_then(|fault| collection_turns::may_have_z(fault, state, batch));
        if let Some(may) = mistaken {
            return may;
        }
        let returned = state.direction == Direction::Return;
        let whole = batch.last == Last::LastRecord;
        match self.fault {
            Fault::ZTakenInARemittance => whole,
            Fault::SecondZTaken => returned && (whole || batch.last == Last::Z),
            _ => Paper.may_have_z(state, batch),
        }
    }

    fn direction_in(&self, file_header: &[u8]) -> Direction {
        match self.fault {
            Fault::DirectionFixedAsRemittance => Direction::Remittance,
            _ => Paper.direction_in(file_header),
        }
    }

    fn most_batches(&self) -> u64 {
        match self.fault {
            Fault::BatchesUnlimited => u64::MAX,
            _ => Paper.most_batches(),
        }
    }

    fn bank_refusal(&self, kind: RecordKind, state: &State, line: &[u8]) -> Option<Refusal> {
        let non_digit = !all_digits(BANK.of(line));
        match self.fault {
            Fault::NonDigitBankIsEight if non_digit => Some((NON_DIGIT, BANK.first)),
            _ => Paper.bank_refusal(kind, state, line),
        }
    }

    fn count(&self, kind: RecordKind, part: Part, state: &State) -> u64 {
        let of_records = kind == RecordKind::FileTrailer && part != FILE_BATCHES;
        let fault = self.collection_fault();
        match (self.fault, state.batch()) {
            (_, Some(batch))
                if fault == Some(CollectionFault::CountedAsTwoRecords)
                    && batch.kind == BatchKind::Collection =>
            {
                Paper.count(kind, part, state) + batch.totals.payments()
            }
            (Fault::TrailerCountsPayments, Some(batch)) => batch.totals.payments(),
            (Fault::LiveRecordsCounted, Some(batch)) => {
                let left_out = records_of(batch, batch.totals.withdrawn.payments);
                Paper.count(kind, part, state) - left_out
            }
            (Fault::FileEndsNotCounted, None) if of_records => state.accepted_lines - 1,
            _ => Paper.count(kind, part, state),
        }
    }

    fn sum_is_right(&self, state: &State, line: &[u8]) -> bool {
        let untested = self.has(Fault::SumTestedInFirstBatchOnly) && state.batches > 1;
        let sum = u128::from(BATCH_SUM.number(line));
        untested || state.batch().map(|batch| self.sum_of(batch)) == Some(sum)
    }

    fn sum_of(&self, batch: &Batch) -> u128 {
        let right = Paper.sum_of(batch);
        match self.fault {
            Fault::Collection(CollectionFault::AmountNotSummed, _)
                if batch.kind == BatchKind::Collection =>
            {
                0
            }
            Fault::SumOfLiveOnly => batch.totals.live.cents,
            Fault::SumOfWithdrawnOnly => batch.totals.withdrawn.cents,
            Fault::SumsIn32Bits => u128::from(right as u32),
            Fault::SumsCutTo18Digits => right % CENTS_LIMIT,
            _ => right,
        }
    }

    fn payments_in(&self, batch: &Batch) -> u64 {
        match self.limit_fault() {
            Some(fault) => limits::payments(fault, batch.totals),
            None => Paper.payments_in(batch),
        }
    }

    fn total(&self, state: &State, batch: &Batch) -> u128 {
        let mut totals = state.totals;
        totals.add(batch.totals);
        match self.limit_fault() {
            Some(fault) => limits::cents(fault, totals),
            None => Paper.total(state, batch),
        }
    }

    fn is_too_large(&self, total: u128) -> bool {
        match self.fault {
            Fault::TotalUnlimited => false,
            Fault::TotalAtTheLimitTaken => total > CENTS_LIMIT,
            _ => Paper.is_too_large(total),
        }
    }
}

impl Sown {
    /// A row, and the other that it is tested before.
    fn row_moved(self, rows: &[Row]) -> Option<(Row, Row)> {
        let mut fields = rows.iter().filter(|row| matches!(row, Row::Field(_)));
        let first_field = fields.next().copied().unwrap_or(Row::Type);
        match self.fault {
            Fault::LengthBeforeEnd => Some((Row::Length, Row::End)),
            Fault::LineEndBeforeBytes => Some((Row::LineEnd, Row::Bytes)),
            Fault::BatchLimitBehindBank => Some((Row::Bank, Row::BatchLimit)),
            Fault::BatchNumberBeforeBank => Some((Row::BatchNumber, Row::Bank)),
            Fault::SegmentBeforeDetailNumber => Some((Row::Segment, Row::DetailNumber)),
            Fault::SumBeforeFields => Some((Row::Sum, first_field)),
            Fault::TotalBeforeSum => Some((Row::Total, Row::Sum)),
            Fault::EquationBeforeFields => Some((Row::Boleto(BoletoRule::Equation), first_field)),
            Fault::DueDateBeforeCheck => Some((
                Row::Boleto(BoletoRule::DueDate),
                Row::Boleto(BoletoRule::GeneralCheck),
            )),
            _ => None,
        }
    }
}

/// The counts are tested behind all fields.
fn move_counts(rows: &mut Vec<Row>) {
    let is_count = |row: &Row| matches!(row, Row::Count(_));
    let counts: Vec<Row> = rows.iter().copied().filter(is_count).collect();
    rows.retain(|row| !is_count(row));
    let last = rows.iter().rposition(|row| matches!(row, Row::Field(_)));
    let behind = last.map_or(rows.len(), |last| last + 1);
    rows.splice(behind..behind, counts);
}
