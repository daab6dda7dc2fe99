//! Mistakes of the writer around its calls: what it writes beside the records,
//! what it counts, and the lines and places that its refusals name.

use super::collection_faults::CollectionFault;
use super::totals::{Miscount, TotalsFault};
use super::writer_faults::WriterFault;
use super::Sown;
use crate::making::movements::given_movement;
use crate::paper::answers::{AnswerLine, Verdict};
use crate::paper::file_state::{Batch, Stage};
use crate::paper::lines::{LINE_BYTES, RECORD_BYTES};
use crate::paper::numbers::{OUTPUT_TOO_SHORT, OUT_OF_TURN, OVER_A_LIMIT, WRONG_SEGMENT};
use crate::paper::places::{self, NOMINAL, TYPE};
use crate::paper::record_kinds::{Direction, RecordKind};
use crate::paper::totals::Movement;
use crate::paper::writer::{Output, Writer};
use crate::paper::writer_calls::{CallKind, WriterCall};

const SWAPPED_LINE_END: &[u8] = b"\n\r";

/// The paper's writer, with what a fault does before and behind its calls.
pub struct SownWriter {
    pub fault: Option<WriterFault>,
    totals_fault: Option<TotalsFault>,
    pub inner: Writer<Sown>,
    accepted_calls: u64,
    /// Where the header of the last batch begins.
    pub header_at: usize,
    /// So many withdrawn payments were refused.
    refused_withdrawn: u64,
    /// A payment of one record takes as much of the output as two.
    lines_of_two: bool,
}

impl SownWriter {
    pub fn with(sown: Sown) -> SownWriter {
        SownWriter {
            fault: sown.writer_fault(),
            totals_fault: sown.writer_totals_fault(),
            inner: Writer::by(sown),
            accepted_calls: 0,
            header_at: 0,
            refused_withdrawn: 0,
            lines_of_two: sown.collection_fault() == Some(CollectionFault::WrittenAsTwoLines),
        }
    }

    pub fn has(&self, fault: WriterFault) -> bool {
        self.fault == Some(fault)
    }

    pub fn call(&mut self, call: &WriterCall, output: &mut Output) -> AnswerLine {
        self.trust_output(output);
        let lent = output.lent;
        if self.has(WriterFault::RoomOfTheWholeMemory) {
            output.lent = output.memory.len();
        }
        let before = Before::of(
            &self.inner,
            output,
            self.has(WriterFault::WrittenFromTheStart),
        );
        let mut answer = self.inner.call(call, output);
        output.lent = lent;
        if let Verdict::Refused { number, .. } = answer.verdict {
            answer.verdict = self.renamed(call, answer.verdict);
            self.remember_refused(call);
            self.slip_at_refusal(call, number, output);
            return answer;
        }
        self.spoil_output(&before, output);
        self.spoil_state(call, &before);
        self.accepted_calls += 1;
        if self.has(WriterFault::TotalsWithoutTheTrailer) {
            let records = answer.numbers.iter_mut().skip(1).take(1);
            records.for_each(|records| *records -= 1);
        }
        if let (Some(fault), CallKind::CloseFile) = (self.totals_fault, call.kind) {
            let miscount = Miscount::of(fault, &self.inner.file, self.refused_withdrawn);
            answer.numbers = miscount.numbers(&answer.numbers);
        }
        answer
    }

    fn remember_refused(&mut self, call: &WriterCall) {
        let first = call.kinds().first().copied();
        if first.and_then(places::amount).is_some() {
            let withdrawn = given_movement(call) == Movement::Withdrawn;
            self.refused_withdrawn += u64::from(withdrawn);
        }
    }

    /// The line and the place that a refusal names.
    fn renamed(&self, call: &WriterCall, verdict: Verdict) -> Verdict {
        match verdict {
            Verdict::Refused {
                number,
                line,
                place,
            } => Verdict::Refused {
                number,
                line: self.named_line(call, number, line),
                place: self.named_place(number, place),
            },
            Verdict::Accepted => verdict,
        }
    }

    fn named_line(&self, call: &WriterCall, number: u32, line: u64) -> u64 {
        let before = self.inner.state.accepted_lines;
        match (self.fault, number) {
            (Some(WriterFault::FaultsOnTheFirstLine), _) => before + 1,
            (Some(WriterFault::TurnOnLineOne), OUT_OF_TURN) => 1,
            (Some(WriterFault::TurnOnTheLastLine), OUT_OF_TURN) => before,
            (Some(WriterFault::RoomOnTheLastLine), OUTPUT_TOO_SHORT) => {
                before + call.records.len() as u64
            }
            (Some(WriterFault::LinesCountedByCalls), _) => line - before + self.accepted_calls,
            _ => line,
        }
    }

    fn named_place(&self, number: u32, place: usize) -> usize {
        match (self.fault, number) {
            (Some(WriterFault::LimitWithoutPlace), OVER_A_LIMIT) => 0,
            (Some(WriterFault::SegmentAtTheType), WRONG_SEGMENT)
            | (Some(WriterFault::TurnAtTheType), OUT_OF_TURN) => TYPE.first,
            _ => place,
        }
    }

    /// What an accepted call has left in the output.
    fn spoil_output(&self, before: &Before, output: &mut Output) {
        let (from, behind) = (before.cursor, self.inner.cursor);
        match self.fault {
            Some(WriterFault::LineEndsSwapped) => {
                for line in (from..behind).step_by(LINE_BYTES) {
                    output.put(line + RECORD_BYTES, SWAPPED_LINE_END);
                }
            }
            Some(WriterFault::WrittenFromTheStart) => {
                output.memory.clone_from(&before.memory);
                output.put(0, &self.inner.file[before.written..]);
            }
            Some(WriterFault::ClearedBehindTheRecords) if behind < output.lent => {
                output.memory[behind..output.lent].fill(b' ');
            }
            _ => {}
        }
    }

    /// What an accepted call has left in the state.
    fn spoil_state(&mut self, call: &WriterCall, before: &Before) {
        let state = &mut self.inner.state;
        match call.kind {
            CallKind::OpenFile if self.fault == Some(WriterFault::DirectionAlwaysRemittance) => {
                state.direction = Direction::Remittance;
            }
            CallKind::OpenBatch => self.header_at = before.cursor,
            CallKind::Payment => {
                self.spoil_batch(call, before);
                if self.lines_of_two && call.records.len() == 1 {
                    self.inner.cursor += LINE_BYTES;
                }
            }
            _ => {}
        }
    }

    fn spoil_batch(&mut self, call: &WriterCall, before: &Before) {
        let first = &self.inner.file[before.written..];
        let kinds = call.kinds();
        let totals_before = before.batch.as_ref().map(|batch| batch.totals);
        let batch = match &mut self.inner.state.stage {
            Stage::InBatch(batch) => batch,
            _ => return,
        };
        match self.fault {
            Some(WriterFault::ZCountedAsPayment) => {
                let zs = kinds.iter().filter(|kind| **kind == RecordKind::Z);
                batch.totals.live.payments += zs.count() as u64;
            }
            Some(WriterFault::NominalSummed) if kinds[0] == RecordKind::J => {
                batch.totals = totals_before.unwrap_or_default();
                let movement = Movement::of(first);
                batch.totals.add_payment(movement, NOMINAL.number(first));
            }
            _ => {}
        }
    }
}

/// What a call meets.
struct Before {
    cursor: usize,
    /// How many bytes the calls before have written.
    written: usize,
    batch: Option<Batch>,
    /// Kept only where the fault asks for it.
    memory: Vec<u8>,
}

impl Before {
    fn of(writer: &Writer<Sown>, output: &Output, keeps_memory: bool) -> Before {
        Before {
            cursor: writer.cursor,
            written: writer.file.len(),
            batch: writer.state.batch().cloned(),
            memory: if keeps_memory {
                output.memory.clone()
            } else {
                Vec::new()
            },
        }
    }
}
