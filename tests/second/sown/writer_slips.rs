//! Mistakes of the writer about its state and its output: it trusts what it
//! finds in the output, or a refused call leaves something behind.

use super::writer::SownWriter;
use super::writer_faults::WriterFault;
use crate::asking::probe::UNTOUCHED;
use crate::paper::file_state::Stage;
use crate::paper::line_checker::batch_kind;
use crate::paper::lines::LINE_BYTES;
use crate::paper::numbers::{OUTPUT_TOO_SHORT, OUT_OF_TURN};
use crate::paper::places::{BANK, DIRECTION, TYPE};
use crate::paper::record_kinds::Direction;
use crate::paper::writer::Output;
use crate::paper::writer_calls::{CallKind, WriterCall};

impl SownWriter {
    /// What the output holds by now does not count.
    pub fn trust_output(&mut self, output: &Output) {
        let lent = &output.memory[..output.lent];
        let state = &mut self.inner.state;
        let begun = !matches!(state.stage, Stage::Start) && lent.len() >= LINE_BYTES;
        match self.fault {
            Some(WriterFault::BankReadBack) if begun => state.bank = BANK.of(lent).to_vec(),
            Some(WriterFault::DirectionReadBack) if begun => {
                state.direction = match DIRECTION.of(lent) {
                    b"2" => Direction::Return,
                    _ => Direction::Remittance,
                };
            }
            Some(WriterFault::BatchKindReadBack | WriterFault::DetailsReadBack) => {
                self.trust_batch_in(lent);
            }
            Some(WriterFault::CursorFoundByLooking) => {
                let untouched = lent.iter().position(|byte| *byte == UNTOUCHED);
                self.inner.cursor = untouched.unwrap_or(lent.len());
            }
            _ => {}
        }
    }

    fn trust_batch_in(&mut self, lent: &[u8]) {
        let header = lent.get(self.header_at..).unwrap_or_default();
        let batch = match &mut self.inner.state.stage {
            Stage::InBatch(batch) => batch,
            _ => return,
        };
        match self.fault {
            Some(WriterFault::BatchKindReadBack) if header.len() >= LINE_BYTES => {
                batch.kind = batch_kind(header);
            }
            Some(WriterFault::DetailsReadBack) => {
                let lines = header.chunks_exact(LINE_BYTES).skip(1);
                let details = lines.take_while(|line| TYPE.of(line) == b"3");
                batch.details = details.count() as u64;
            }
            _ => {}
        }
    }

    /// A refusal leaves state and output.
    pub fn slip_at_refusal(&mut self, call: &WriterCall, number: u32, output: &mut Output) {
        if self.has(WriterFault::RefusalIsFinal) {
            self.inner.state.stage = Stage::Ended;
        }
        if number == OUT_OF_TURN {
            return;
        }
        let no_room = number == OUTPUT_TOO_SHORT;
        match self.fault {
            Some(WriterFault::DirectionOfARefusedHeader) => self.keep_direction(call),
            Some(WriterFault::StateMovedWithoutRoom) if no_room => {
                let drafts = self.inner.drafts(call);
                self.inner.advance(&call.kinds(), &drafts);
            }
            Some(WriterFault::RecordsBeforeTheFaultWritten) => self.write_before(call, output),
            Some(WriterFault::WrittenAsFarAsThereIsRoom) if no_room => {
                let left = output.lent.saturating_sub(self.inner.cursor);
                let drafts = self.inner.drafts(call).into_iter();
                let bytes: Vec<u8> = drafts.flat_map(|draft| draft.bytes).collect();
                output.put(self.inner.cursor, &bytes[..left.min(bytes.len())]);
            }
            _ => self.slip_in_counts(call),
        }
    }

    fn keep_direction(&mut self, call: &WriterCall) {
        let drafts = self.inner.drafts(call);
        if call.kind == CallKind::OpenFile && DIRECTION.of(&drafts[0].bytes) == b"2" {
            self.inner.state.direction = Direction::Return;
        }
    }

    /// The records before the one with the fault.
    fn write_before(&self, call: &WriterCall, output: &mut Output) {
        let refusals = self.inner.refusals(call, output);
        let at_fault = refusals.first().and_then(|(row, _)| row.record());
        let drafts = self.inner.drafts(call);
        for (at, draft) in drafts.iter().enumerate().take(at_fault.unwrap_or(0)) {
            output.put(self.inner.cursor + at * LINE_BYTES, &draft.bytes);
        }
    }

    fn slip_in_counts(&mut self, call: &WriterCall) {
        let records = call.records.len();
        let state = &mut self.inner.state;
        match (self.fault, &mut state.stage) {
            (Some(WriterFault::CursorMovedAtRefusal), _) => {
                self.inner.cursor += records * LINE_BYTES;
            }
            (Some(WriterFault::LinesCountedAtRefusal), _) => {
                state.accepted_lines += records as u64;
            }
            (Some(WriterFault::BatchCountedAtRefusal), _) => {
                state.batches += u64::from(call.kind == CallKind::OpenBatch);
            }
            (Some(WriterFault::DetailsCountedAtRefusal), Stage::InBatch(batch)) => {
                batch.details += records as u64;
            }
            (Some(WriterFault::PaymentCountedAtRefusal), Stage::InBatch(batch)) => {
                batch.totals.live.payments += 1;
            }
            (Some(WriterFault::CentsCountedAtRefusal), Stage::InBatch(batch)) => {
                batch.totals.live.cents += 1;
            }
            _ => {}
        }
    }
}
