//! The tests of one line of a file. What a line may be depends on the lines
//! accepted before it.

use super::boleto_rules::BoletoRules;
use super::collection_rules::CollectionRules;
use super::file_state::{Batch, BatchKind, Last, Stage, State};
use super::line_order::{rows_in_order, Row};
use super::lines::{CENTS_LIMIT, LINE_BYTES, LINE_END, MOST_BATCHES, MOST_PAYMENTS, RECORD_BYTES};
use super::numbers::{BEHIND_THE_END, NON_DIGIT, OTHER_BANK, OVER_A_LIMIT, TOTAL_TOO_LARGE};
use super::numbers::{WRONG_BATCH_NUMBER, WRONG_COUNT, WRONG_DETAIL_NUMBER, WRONG_LENGTH};
use super::numbers::{WRONG_LINE_END, WRONG_SEGMENT, WRONG_SUM, WRONG_TYPE};
use super::places::{self, Part, BANK, BATCH_NUMBER, BATCH_SUM, DETAIL_NUMBER, DIRECTION};
use super::places::{FILE_BATCHES, SEGMENT, TYPE};
use super::record_kinds::{Direction, RecordKind, Subject};
use super::record_rules::{all_digits, Draft, RecordRules, Refusal};
use super::Paper;

const BATCH_NUMBER_OF_FILE_HEADER: u64 = 0;
const BATCH_NUMBER_OF_FILE_TRAILER: u64 = 9_999;

pub trait LineRules: RecordRules + BoletoRules + CollectionRules {
    /// Number and place of the first row in order that holds for the line.
    fn line_refusal(&self, state: &State, line: &[u8]) -> Option<Refusal> {
        let kind = self.kind_here(state, line);
        let record = line.get(..RECORD_BYTES).unwrap_or(line);
        let draft = Draft::of_bytes(record);
        let rows = self.line_rows(kind).into_iter();
        let mut refusals = rows.map(|row| match (row, kind) {
            (Row::Field(field), Some(kind)) => {
                let direction = self.direction_of(state, kind, line);
                let subject = Subject { kind, direction };
                self.field_refusal(field, subject, &draft)
            }
            (row, Some(kind)) => self.refusal_as(kind, row, state, line),
            (row, None) => self.refusal_by_form(row, state, line),
        });
        refusals.find_map(|refusal| refusal)
    }

    fn line_rows(&self, kind: Option<RecordKind>) -> Vec<Row> {
        rows_in_order(kind)
    }

    /// The kind of record that a line with this type and segment is read as;
    /// nothing where its type is not allowed.
    fn kind_here(&self, state: &State, line: &[u8]) -> Option<RecordKind> {
        if line.len() != LINE_BYTES {
            return None;
        }
        match (&state.stage, TYPE.of(line)) {
            (Stage::Start, b"0") => Some(RecordKind::FileHeader),
            (Stage::BetweenBatches, b"1") => Some(RecordKind::BatchHeader),
            (Stage::BetweenBatches, b"9") if self.may_end(state) => Some(RecordKind::FileTrailer),
            (Stage::InBatch(batch), b"3") => Some(self.detail_here(state, batch, line)),
            (Stage::InBatch(batch), b"5") if self.may_close(batch) => {
                Some(RecordKind::BatchTrailer)
            }
            _ => None,
        }
    }

    /// A file has one or more batches.
    fn may_end(&self, state: &State) -> bool {
        state.batches > 0
    }

    /// A batch has one or more payments, each of them whole.
    fn may_close(&self, batch: &Batch) -> bool {
        batch.has_whole_payment()
    }

    fn detail_here(&self, state: &State, batch: &Batch, line: &[u8]) -> RecordKind {
        if SEGMENT.of(line) == b"Z" && self.may_have_z(state, batch) {
            return RecordKind::Z;
        }
        detail_by_place(batch)
    }

    /// The detail is one that may come now.
    fn may_stand_here(&self, kind: RecordKind, batch: &Batch) -> bool {
        kind == RecordKind::Z || kind == detail_by_place(batch)
    }

    /// In a return, one after a payment; it is never a must.
    fn may_have_z(&self, state: &State, batch: &Batch) -> bool {
        state.direction == Direction::Return && batch.last == Last::LastRecord
    }

    fn direction_of(&self, state: &State, kind: RecordKind, line: &[u8]) -> Direction {
        if kind == RecordKind::FileHeader {
            return self.direction_in(line);
        }
        state.direction
    }

    fn direction_in(&self, file_header: &[u8]) -> Direction {
        if DIRECTION.of(file_header) == [Direction::Return.code()] {
            Direction::Return
        } else {
            Direction::Remittance
        }
    }

    /// The rows that say nothing of the kind of record. A line that passes
    /// them all has a type that is allowed, and so a kind.
    fn refusal_by_form(&self, row: Row, state: &State, line: &[u8]) -> Option<Refusal> {
        match row {
            Row::End => state.has_ended().then_some((BEHIND_THE_END, 0)),
            Row::Length => (line.len() != LINE_BYTES).then_some((WRONG_LENGTH, 0)),
            Row::Bytes => self.byte_refusal(&line[..RECORD_BYTES]),
            Row::LineEnd => {
                let mut pairs = line[RECORD_BYTES..].iter().zip(LINE_END);
                let before = pairs.position(|(byte, wanted)| byte != wanted)?;
                Some((WRONG_LINE_END, RECORD_BYTES + before + 1))
            }
            Row::Type => {
                let allowed = self.kind_here(state, line).is_some();
                (!allowed).then_some((WRONG_TYPE, TYPE.first))
            }
            _ => None,
        }
    }

    /// The rows of a line that is read as this kind of record.
    fn refusal_as(
        &self,
        kind: RecordKind,
        row: Row,
        state: &State,
        line: &[u8],
    ) -> Option<Refusal> {
        match row {
            Row::BatchLimit => {
                let over = state.batches >= self.most_batches();
                over.then_some((OVER_A_LIMIT, TYPE.first))
            }
            Row::Bank => self.bank_refusal(kind, state, line),
            Row::BatchNumber => {
                let right = holds(BATCH_NUMBER, line, number_of_batch(kind, state));
                (!right).then_some((WRONG_BATCH_NUMBER, BATCH_NUMBER.first))
            }
            Row::DetailNumber => {
                let right = holds(DETAIL_NUMBER, line, state.batch()?.details + 1);
                (!right).then_some((WRONG_DETAIL_NUMBER, DETAIL_NUMBER.first))
            }
            Row::Segment => {
                let named = Some(SEGMENT.of(line)) == kind.segment();
                let right = named && self.may_stand_here(kind, state.batch()?);
                (!right).then_some((WRONG_SEGMENT, SEGMENT.first))
            }
            Row::PaymentLimit => {
                let over = self.payments_in(state.batch()?) >= MOST_PAYMENTS;
                let begins_payment = places::amount(kind).is_some();
                (over && begins_payment).then_some((OVER_A_LIMIT, SEGMENT.first))
            }
            Row::Registration(field) => {
                let direction = self.direction_of(state, kind, line);
                self.registration_refusal(field, Subject { kind, direction }, line)
            }
            Row::Boleto(rule) => self.boleto_refusal(rule, line),
            Row::Collection(rule) => {
                let direction = self.direction_of(state, kind, line);
                self.collection_refusal(rule, Subject { kind, direction }, line)
            }
            Row::Count(_) | Row::Sum | Row::Total => self.trailer_refusal(kind, row, state, line),
            _ => self.refusal_by_form(row, state, line),
        }
    }

    fn most_batches(&self) -> u64 {
        MOST_BATCHES
    }

    /// Live and withdrawn ones together.
    fn payments_in(&self, batch: &Batch) -> u64 {
        batch.totals.payments()
    }

    /// Only the file header has nothing to compare its bank with.
    fn bank_refusal(&self, kind: RecordKind, state: &State, line: &[u8]) -> Option<Refusal> {
        let bank = BANK.of(line);
        let number = match kind {
            RecordKind::FileHeader => (!all_digits(bank)).then_some(NON_DIGIT),
            _ => (bank != state.bank).then_some(OTHER_BANK),
        };
        number.map(|number| (number, BANK.first))
    }

    /// The rows of trailers.
    fn trailer_refusal(
        &self,
        kind: RecordKind,
        row: Row,
        state: &State,
        line: &[u8],
    ) -> Option<Refusal> {
        match row {
            Row::Count(part) => {
                let wanted = self.count(kind, part, state);
                (part.number(line) != wanted).then_some((WRONG_COUNT, part.first))
            }
            Row::Sum => {
                let right = self.sum_is_right(state, line);
                (!right).then_some((WRONG_SUM, BATCH_SUM.first))
            }
            Row::Total => {
                let total = self.total(state, state.batch()?);
                self.is_too_large(total)
                    .then_some((TOTAL_TOO_LARGE, BATCH_SUM.first))
            }
            _ => None,
        }
    }

    /// A trailer counts itself too.
    fn count(&self, kind: RecordKind, part: Part, state: &State) -> u64 {
        match (kind, state.batch()) {
            (RecordKind::BatchTrailer, Some(batch)) => batch.details + 2,
            _ if part == FILE_BATCHES => state.batches,
            _ => state.accepted_lines + 1,
        }
    }

    /// The sum is of every payment, movement 9 included.
    fn sum_is_right(&self, state: &State, line: &[u8]) -> bool {
        let sum = u128::from(BATCH_SUM.number(line));
        state.batch().is_some_and(|batch| self.sum_of(batch) == sum)
    }

    fn sum_of(&self, batch: &Batch) -> u128 {
        batch.totals.cents()
    }

    /// All batches so far with this one.
    fn total(&self, state: &State, batch: &Batch) -> u128 {
        state.totals.cents() + batch.totals.cents()
    }

    fn is_too_large(&self, total: u128) -> bool {
        total >= CENTS_LIMIT
    }
}

impl LineRules for Paper {}

/// J52 is known by its place, second in the payment, whatever its line holds.
pub fn detail_by_place(batch: &Batch) -> RecordKind {
    match (batch.kind, batch.last) {
        (BatchKind::Credit, Last::FirstRecord) => RecordKind::B,
        (BatchKind::Credit, _) => RecordKind::A,
        (BatchKind::Boleto, Last::FirstRecord) => RecordKind::J52,
        (BatchKind::Boleto, _) => RecordKind::J,
        (BatchKind::Collection, _) => RecordKind::O,
    }
}

/// A batch header has the ordinal of the batch that it opens.
pub fn number_of_batch(kind: RecordKind, state: &State) -> u64 {
    match kind {
        RecordKind::FileHeader => BATCH_NUMBER_OF_FILE_HEADER,
        RecordKind::FileTrailer => BATCH_NUMBER_OF_FILE_TRAILER,
        RecordKind::BatchHeader => state.batches + 1,
        _ => state.batches,
    }
}

/// Whether the part has exactly the digits of the number.
fn holds(part: Part, line: &[u8], wanted: u64) -> bool {
    all_digits(part.of(line)) && part.number(line) == wanted
}
