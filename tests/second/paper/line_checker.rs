//! The line checker of document 01: a line is accepted and moves the state, or
//! it is refused and leaves it.

use super::answers::{AnswerLine, Verdict};
use super::file_state::{Batch, BatchKind, Last, Stage, State};
use super::layout_table::{COLLECTION_SERVICE, CREDIT_SERVICE};
use super::line_rules::LineRules;
use super::numbers::{BEHIND_THE_END, NO_END, WRONG_LENGTH};
use super::places::{self, BANK, SERVICE};
use super::record_kinds::RecordKind;
use super::totals::Movement;
use super::Paper;

pub struct LineChecker<Rules = Paper> {
    rules: Rules,
    pub state: State,
}

impl<Rules: LineRules> LineChecker<Rules> {
    pub fn by(rules: Rules) -> LineChecker<Rules> {
        LineChecker {
            rules,
            state: State::at_start(),
        }
    }

    /// A single-line call.
    pub fn line(&mut self, line: &[u8]) -> Verdict {
        match self.rules.line_refusal(&self.state, line) {
            None => {
                self.advance(line);
                self.state.accepted_lines += 1;
                Verdict::Accepted
            }
            Some((number, place)) => self.refused(number, place),
        }
    }

    /// The line named is the number of accepted lines plus one.
    fn refused(&self, number: u32, place: usize) -> Verdict {
        Verdict::Refused {
            number,
            line: self.state.accepted_lines + 1,
            place,
        }
    }

    /// The end of the input, with so many bytes of a line that is not complete.
    pub fn end(&self, begun: usize) -> AnswerLine {
        let number = match (begun, self.state.has_ended()) {
            (0, true) => return self.acceptance(),
            (0, false) => NO_END,
            (_, true) => BEHIND_THE_END,
            (_, false) => WRONG_LENGTH,
        };
        AnswerLine::plain(self.refused(number, 0))
    }

    fn acceptance(&self) -> AnswerLine {
        AnswerLine {
            numbers: self.state.accepted_numbers().to_vec(),
            ..AnswerLine::plain(Verdict::Accepted)
        }
    }

    /// Moves the state by a line whose type is allowed.
    pub fn advance(&mut self, line: &[u8]) {
        let kind = match self.rules.kind_here(&self.state, line) {
            Some(kind) => kind,
            None => return,
        };
        match kind {
            RecordKind::FileHeader => {
                self.state.bank = BANK.of(line).to_vec();
                self.state.direction = self.rules.direction_in(line);
                self.state.stage = Stage::BetweenBatches;
            }
            RecordKind::BatchHeader => {
                self.state.batches += 1;
                self.state.stage = Stage::InBatch(Batch::opened(batch_kind(line)));
            }
            RecordKind::BatchTrailer => self.close_batch(),
            RecordKind::FileTrailer => self.state.stage = Stage::Ended,
            _ => self.take_detail(kind, line),
        }
    }

    fn close_batch(&mut self) {
        if let Stage::InBatch(batch) = &self.state.stage {
            self.state.totals.add(batch.totals);
            self.state.stage = Stage::BetweenBatches;
        }
    }

    /// A payment counts, live or withdrawn, by its first record.
    fn take_detail(&mut self, kind: RecordKind, line: &[u8]) {
        if let Stage::InBatch(batch) = &mut self.state.stage {
            batch.details += 1;
            if let Some(amount) = places::amount(kind) {
                let movement = Movement::of(line);
                batch.totals.add_payment(movement, amount.number(line));
            }
            batch.last = match kind {
                RecordKind::A | RecordKind::J => Last::FirstRecord,
                RecordKind::Z => Last::Z,
                _ => Last::LastRecord,
            };
        }
    }
}

pub fn batch_kind(header: &[u8]) -> BatchKind {
    match SERVICE.of(header) {
        CREDIT_SERVICE => BatchKind::Credit,
        COLLECTION_SERVICE => BatchKind::Collection,
        _ => BatchKind::Boleto,
    }
}
