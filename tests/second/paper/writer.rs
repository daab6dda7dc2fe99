//! The writer of document 01: a call is accepted, writes its records and moves
//! the state, or it is refused and leaves both state and output.

use super::answers::{AnswerLine, Verdict};
use super::file_state::{Batch, Stage, State};
use super::line_checker::batch_kind;
use super::lines::{LINE_BYTES, LINE_END};
use super::places::{self, BANK, DIRECTION};
use super::record_kinds::{Direction, RecordKind};
use super::record_rules::{Draft, Refusal};
use super::totals::Movement;
use super::writer_calls::{CallKind, WriterCall};
use super::writer_fill::Unfilled;
use super::writer_order::Row;
use super::writer_rules::{Attempt, WriterRules};
use super::Paper;

/// The caller's memory, of which the calls are lent the first part.
pub struct Output {
    pub memory: Vec<u8>,
    pub lent: usize,
}

impl Output {
    /// Every call that writes has room; where rules that are not the paper's
    /// let one through without, what does not fit is dropped.
    pub fn put(&mut self, at: usize, bytes: &[u8]) {
        let places = self.memory.iter_mut().skip(at);
        places.zip(bytes).for_each(|(place, byte)| *place = *byte);
    }
}

pub struct Writer<Rules = Paper> {
    rules: Rules,
    pub state: State,
    /// The place reached in the output.
    pub cursor: usize,
    /// The records of the accepted calls, in order.
    pub file: Vec<u8>,
}

impl<Rules: WriterRules> Writer<Rules> {
    pub fn by(rules: Rules) -> Writer<Rules> {
        Writer {
            rules,
            state: State::at_start(),
            cursor: 0,
            file: Vec::new(),
        }
    }

    pub fn call(&mut self, call: &WriterCall, output: &mut Output) -> AnswerLine {
        let drafts = self.drafts(call);
        let kinds = call.kinds();
        let attempt = self.attempt(call, &kinds, &drafts, output);
        let first = self.rules.call_refusals(&attempt).next();
        if let Some((row, (number, place))) = first {
            let line = attempt.line(row);
            return AnswerLine::plain(Verdict::Refused {
                number,
                line,
                place,
            });
        }
        self.write(&drafts, output);
        self.advance(&kinds, &drafts);
        let mut line = AnswerLine::plain(Verdict::Accepted);
        if call.kind == CallKind::CloseFile {
            line.numbers = self.state.accepted_numbers().to_vec();
        }
        line
    }

    /// All rows that hold for a call which is not made; the first of them
    /// would be the answer.
    pub fn refusals(&self, call: &WriterCall, output: &Output) -> Vec<(Row, Refusal)> {
        let drafts = self.drafts(call);
        let kinds = call.kinds();
        let attempt = self.attempt(call, &kinds, &drafts, output);
        self.rules.call_refusals(&attempt).collect()
    }

    fn attempt<'a>(
        &'a self,
        call: &'a WriterCall,
        kinds: &'a [RecordKind],
        drafts: &'a [Draft],
        output: &Output,
    ) -> Attempt<'a> {
        Attempt {
            state: &self.state,
            call,
            kinds,
            drafts,
            cursor: self.cursor,
            lent: output.lent,
        }
    }

    /// The records of a call as they would be written.
    pub fn drafts(&self, call: &WriterCall) -> Vec<Draft> {
        let records = call.records.iter().zip(call.kinds()).enumerate();
        let drafts = records.map(|(before, (record, kind))| {
            let unfilled = Unfilled {
                kind,
                state: &self.state,
                before: before as u64,
            };
            self.rules.filled_draft(unfilled, &record.values)
        });
        drafts.collect()
    }

    /// From the place reached so far, and nothing outside.
    fn write(&mut self, drafts: &[Draft], output: &mut Output) {
        let lines = drafts.iter().flat_map(|draft| [&draft.bytes, LINE_END]);
        let bytes: Vec<u8> = lines.flatten().copied().collect();
        output.put(self.cursor, &bytes);
        self.file.extend(bytes);
    }

    /// Moves the state by the records of a call.
    pub fn advance(&mut self, kinds: &[RecordKind], drafts: &[Draft]) {
        for (kind, draft) in kinds.iter().zip(drafts) {
            match kind {
                RecordKind::FileHeader => self.open_file(&draft.bytes),
                RecordKind::BatchHeader => {
                    self.state.batches += 1;
                    self.state.stage = Stage::InBatch(Batch::opened(batch_kind(&draft.bytes)));
                }
                RecordKind::BatchTrailer => self.close_batch(),
                RecordKind::FileTrailer => self.state.stage = Stage::Ended,
                _ => self.take_detail(*kind, &draft.bytes),
            }
        }
        self.state.accepted_lines += drafts.len() as u64;
        self.cursor += drafts.len() * LINE_BYTES;
    }

    fn open_file(&mut self, header: &[u8]) {
        self.state.bank = BANK.of(header).to_vec();
        if DIRECTION.of(header) == [Direction::Return.code()] {
            self.state.direction = Direction::Return;
        }
        self.state.stage = Stage::BetweenBatches;
    }

    fn close_batch(&mut self) {
        if let Stage::InBatch(batch) = &self.state.stage {
            self.state.totals.add(batch.totals);
            self.state.stage = Stage::BetweenBatches;
        }
    }

    /// A payment counts, live or withdrawn, by its first record.
    fn take_detail(&mut self, kind: RecordKind, record: &[u8]) {
        if let Stage::InBatch(batch) = &mut self.state.stage {
            batch.details += 1;
            if let Some(amount) = places::amount(kind) {
                let movement = Movement::of(record);
                batch.totals.add_payment(movement, amount.number(record));
            }
        }
    }
}
