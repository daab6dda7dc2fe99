//! Mistakes in what the writer fills in, and in what it takes from the caller.

use super::collection_faults::CollectionFault;
use super::line_rules::records_of;
use super::writer_faults::WriterFault;
use super::Sown;
use crate::paper::file_state::{BatchKind, State};
use crate::paper::layout_table::{self as table, Entry, Field};
use crate::paper::places::{Part, BANK, BATCH_NUMBER, BATCH_RECORDS, BATCH_SUM, DETAIL_NUMBER};
use crate::paper::places::{FILE_BATCHES, FILE_RECORDS};
use crate::paper::record_kinds::{Direction, RecordKind};
use crate::paper::record_rules::{all_blank, Draft, RecordRules};
use crate::paper::records::{first_too_wide, Records, Values};
use crate::paper::writer_fill::{filled_part, own_number, Filling, Unfilled, BOTH_ENDS};
use crate::paper::Paper;

/// Narrower fields hold no number of more than 32 bits.
const FIRST_WIDTH_OVER_32_BITS: usize = 10;

/// Of all but an O.
const RECORDS_OF_MOST_PAYMENTS: u64 = 2;

impl Filling for Sown {
    fn filled_draft(&self, unfilled: Unfilled, values: &Values) -> Draft {
        let mut draft = self.draft(unfilled.kind, &self.filled_values(unfilled, values));
        if let Some(fault) = self.writer_fault() {
            for field in table::fields(unfilled.kind) {
                slip_in_text(fault, unfilled, field, values, &mut draft);
            }
        }
        draft
    }

    fn filled_number(&self, unfilled: Unfilled, field: Field, given: Option<u64>) -> Option<u64> {
        let fault = match self.writer_fault() {
            Some(fault) => fault,
            None => return self.filled_in_a_collection(unfilled, field, given),
        };
        match filled_part(unfilled.kind, field) {
            Some(part) if keeps_number(fault, unfilled.kind, part, given) => given,
            Some(part) => {
                let right = own_number(unfilled, part);
                Some(mistaken_number(fault, unfilled, part).unwrap_or(right))
            }
            None => taken_number(fault, unfilled.kind, field, given),
        }
    }
}

impl Sown {
    /// The numbers of the trailer behind O records.
    fn filled_in_a_collection(
        self,
        unfilled: Unfilled,
        field: Field,
        given: Option<u64>,
    ) -> Option<u64> {
        let right = Paper.filled_number(unfilled, field, given);
        let batch = match unfilled.state.batch() {
            Some(batch) if batch.kind == BatchKind::Collection => batch,
            _ => return right,
        };
        match (self.collection_fault(), filled_part(unfilled.kind, field)) {
            (Some(CollectionFault::AmountNotSummed), Some(BATCH_SUM)) => Some(0),
            (Some(CollectionFault::CountedAsTwoRecords), Some(BATCH_RECORDS)) => {
                right.map(|records| records + batch.totals.payments())
            }
            _ => right,
        }
    }
}

/// The number that the writer fills in instead of its own.
fn mistaken_number(fault: WriterFault, unfilled: Unfilled, part: Part) -> Option<u64> {
    let Unfilled {
        kind,
        state,
        before,
    } = unfilled;
    match (kind, part) {
        (_, BATCH_NUMBER) => batch_number(fault, unfilled),
        (_, DETAIL_NUMBER) => details_before(fault, state).map(|details| details + before + 1),
        (RecordKind::BatchTrailer, BATCH_SUM) => sum(fault, state),
        (RecordKind::BatchTrailer, BATCH_RECORDS) => records_of_batch(fault, state),
        (RecordKind::FileTrailer, FILE_BATCHES) => {
            let payments = state.totals.payments();
            (fault == WriterFault::FileTrailerCountsPayments).then_some(payments)
        }
        (RecordKind::FileTrailer, FILE_RECORDS) => records_of_file(fault, state),
        _ => None,
    }
}

fn batch_number(fault: WriterFault, unfilled: Unfilled) -> Option<u64> {
    let right = own_number(unfilled, BATCH_NUMBER);
    match (fault, unfilled.kind) {
        (_, RecordKind::FileHeader) => None,
        (WriterFault::FileTrailerNumberedOn, RecordKind::FileTrailer) => {
            Some(unfilled.state.batches + 1)
        }
        (_, RecordKind::FileTrailer) => None,
        (WriterFault::OrdinalNotRaised, _) => Some(1),
        (WriterFault::OrdinalFromZero, _) => Some(right - 1),
        _ => None,
    }
}

/// How many details of the batch have a number already.
fn details_before(fault: WriterFault, state: &State) -> Option<u64> {
    let batch = state.batch()?;
    match fault {
        WriterFault::DetailsRestartInEachPayment => Some(0),
        WriterFault::DetailsGoOnAcrossBatches => {
            Some(state.accepted_lines - BOTH_ENDS * state.batches)
        }
        WriterFault::ZNotNumbered => Some(records_of(batch, batch.totals.payments())),
        _ => None,
    }
}

fn records_of_batch(fault: WriterFault, state: &State) -> Option<u64> {
    let batch = state.batch()?;
    match fault {
        WriterFault::TrailerCountsPayments => Some(batch.totals.payments()),
        WriterFault::TrailerCountsDetails => Some(batch.details),
        WriterFault::TrailerCountsTheFile => Some(state.accepted_lines + 1),
        WriterFault::ZNotCounted => Some(records_of(batch, batch.totals.payments()) + BOTH_ENDS),
        WriterFault::LiveRecordsCounted => {
            let left_out = records_of(batch, batch.totals.withdrawn.payments);
            Some(batch.details + BOTH_ENDS - left_out)
        }
        _ => None,
    }
}

fn records_of_file(fault: WriterFault, state: &State) -> Option<u64> {
    match fault {
        WriterFault::FileTrailerNotCounted => Some(state.accepted_lines),
        WriterFault::ZNotCountedInTheFile => {
            let details = RECORDS_OF_MOST_PAYMENTS * state.totals.payments();
            Some(details + BOTH_ENDS * (state.batches + 1))
        }
        _ => None,
    }
}

fn sum(fault: WriterFault, state: &State) -> Option<u64> {
    let totals = state.batch()?.totals;
    let cents = totals.cents() as u64;
    match fault {
        WriterFault::SumLeftOut => Some(0),
        WriterFault::SumOfTheFile => Some(cents + state.totals.cents() as u64),
        WriterFault::SumOfLiveOnly => Some(totals.live.cents as u64),
        WriterFault::SumOfWithdrawnOnly => Some(totals.withdrawn.cents as u64),
        WriterFault::SumsIn32Bits => Some(u64::from(cents as u32)),
        _ => None,
    }
}

/// The caller's number does not count where the writer has its own.
fn keeps_number(fault: WriterFault, kind: RecordKind, part: Part, given: Option<u64>) -> bool {
    let is_trailer = kind == RecordKind::BatchTrailer || kind == RecordKind::FileTrailer;
    let too_wide = (0..part.width()).fold(1, |power, _| power * 10);
    match (fault, part) {
        (WriterFault::BankOfTheCaller, BANK)
        | (WriterFault::BatchNumberOfTheCaller, BATCH_NUMBER)
        | (WriterFault::DetailNumberOfTheCaller, DETAIL_NUMBER)
        | (WriterFault::CountsOfTheCaller, BATCH_RECORDS) => true,
        (WriterFault::BankOfTheCallerInTrailers, BANK) => is_trailer,
        (WriterFault::FilledNumbersTested, _) => given >= Some(too_wide),
        _ => false,
    }
}

/// The caller's number where it counts.
fn taken_number(
    fault: WriterFault,
    kind: RecordKind,
    field: Field,
    given: Option<u64>,
) -> Option<u64> {
    let narrow = field.width() < FIRST_WIDTH_OVER_32_BITS;
    given.map(|number| match (fault, kind) {
        (WriterFault::BatchTrailerFieldsZero, RecordKind::BatchTrailer)
        | (WriterFault::FileTrailerFieldZero, RecordKind::FileTrailer) => 0,
        (WriterFault::LargestNumberWraps, _) if number == u64::MAX => 0,
        (WriterFault::NarrowNumbersIn32Bits, _) if narrow => u64::from(number as u32),
        (WriterFault::WideNumberCut, _) if field.is_number() => number % first_too_wide(field),
        _ => number,
    })
}

/// What stands in a field of the draft beside what the writer puts there.
fn slip_in_text(
    fault: WriterFault,
    unfilled: Unfilled,
    field: Field,
    values: &Values,
    draft: &mut Draft,
) {
    let text = field.of(&values.text);
    let fixed = field.fixed_content().is_some();
    let unprintable = text.iter().any(|byte| !Paper.is_printable(*byte));
    let reserved = field.entry == Entry::BlankInRemittance
        && unfilled.state.direction == Direction::Remittance
        && !all_blank(text);
    let kept = match fault {
        WriterFault::FixedTextKept => fixed,
        WriterFault::UnusedTextTested => (field.is_number() || fixed) && unprintable,
        _ => false,
    };
    let cleared = match fault {
        WriterFault::ReservedCleared => reserved,
        WriterFault::ReservedOfTrailerCleared => {
            reserved && unfilled.kind == RecordKind::BatchTrailer
        }
        _ => false,
    };
    if kept {
        field.put(&mut draft.bytes, text);
    }
    if cleared {
        field.put(&mut draft.bytes, &vec![b' '; field.width()]);
    }
}
