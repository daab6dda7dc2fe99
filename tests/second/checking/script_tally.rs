//! Counts what was seen in the scripts of a run, and has every file that they
//! close read by the second program's own reader.

use std::collections::BTreeSet;
use std::fmt;

use crate::asking::writer_script::{Misfit, Step};
use crate::checking::call_sights::SeenCall;
use crate::checking::movement_tally::{counted, Mix};
use crate::checking::script_demands::demanded;
use crate::checking::script_sights::{code, Sight};
use crate::making::movements::given_movement;
use crate::paper::answers::{AnswerLine, Verdict};
use crate::paper::file_reader::check_file;
use crate::paper::file_state::{BatchKind, BATCH_KINDS};
use crate::paper::layout_table as table;
use crate::paper::lines::LINE_BYTES;
use crate::paper::places;
use crate::paper::record_kinds::RecordKind;
use crate::paper::totals::{Movement, Totals};
use crate::paper::writer::{Output, Writer};
use crate::paper::writer_calls::{CallKind, WriterCall};
use crate::paper::Paper;

/// A run with fewer scripts says too little.
const LEAST_SCRIPTS: usize = 20_000;

pub struct ScriptTally {
    scripts: usize,
    closed: usize,
    /// What is demanded and no script has shown so far.
    unseen: BTreeSet<Sight>,
    misread: Vec<String>,
}

impl Default for ScriptTally {
    fn default() -> ScriptTally {
        ScriptTally {
            scripts: 0,
            closed: 0,
            unseen: demanded().into_iter().collect(),
            misread: Vec::new(),
        }
    }
}

impl ScriptTally {
    pub fn count(&mut self, script: &Result<Vec<Step>, Misfit>, room: usize) {
        self.scripts += 1;
        match script {
            Ok(script) => self.count_steps(script, room),
            Err(misfit) => self.see([Sight::of_misfit(*misfit)]),
        }
    }

    fn see(&mut self, sights: impl IntoIterator<Item = Sight>) {
        for sight in sights {
            self.unseen.remove(&sight);
        }
    }

    fn count_steps(&mut self, script: &[Step], room: usize) {
        let lines = (room + LINE_BYTES / 2) / LINE_BYTES;
        let bytes = room as isize - (lines * LINE_BYTES) as isize;
        self.see([Sight::RoomBeside { lines, bytes }]);
        let mut run = Run::with_room(room);
        for step in script {
            // Looking costs more than carrying out.
            if self.unseen.is_empty() {
                run.take(step);
            } else {
                let sights = run.watch(step);
                self.see(sights);
            }
        }
        if run.calls == 0 {
            self.see([Sight::NoCall]);
        }
        if run.writer.state.has_ended() {
            self.closed += 1;
            self.read_back(&run);
        }
    }

    /// What was put in has to be what the reader finds.
    fn read_back(&mut self, run: &Run) {
        let read = check_file(&run.writer.file).to_string();
        let put_in = run.put_in.to_string();
        if read != put_in {
            self.misread
                .push(format!("a closed file of {put_in} is read as {read}"));
        }
        if run.said_at_the_close != put_in {
            let said = &run.said_at_the_close;
            self.misread
                .push(format!("closing a file of {put_in} says {said}"));
        }
    }

    /// What no script showed, and what makes the scripts worthless.
    pub fn gaps(&self) -> Vec<String> {
        let mut gaps = self.misread.clone();
        let unseen = self.unseen.iter();
        gaps.extend(unseen.map(|sight| format!("no script showed {sight:?}")));
        if self.scripts < LEAST_SCRIPTS {
            gaps.push(format!("there were only {} scripts", self.scripts));
        }
        gaps
    }

    pub fn summary(&self) -> String {
        format!(
            "scripts for the writer: {} with {} sorts of contents, files closed and read back: {}",
            self.scripts,
            demanded().len(),
            self.closed
        )
    }
}

/// A script as it is carried out by the rules of document 01.
struct Run {
    writer: Writer,
    output: Output,
    calls: usize,
    last_refusal: Option<u32>,
    /// Of a payment that the last call gave in vain.
    refused_movement: Option<Movement>,
    overwritten: bool,
    batches: Vec<BatchKind>,
    has_z: bool,
    put_in: PutIn,
    /// What the close of the file has said.
    said_at_the_close: String,
}

/// What the accepted calls have put in, added up from what the caller gave.
#[derive(Default)]
struct PutIn {
    batches: u64,
    records: u64,
    totals: Totals,
    /// Of the open batch, which are among the others too.
    of_batch: Totals,
}

impl fmt::Display for PutIn {
    fn fmt(&self, out: &mut fmt::Formatter) -> fmt::Result {
        let (batches, records) = (self.batches, self.records);
        let Totals { live, withdrawn } = self.totals;
        write!(
            out,
            "OK {batches} {records} {} {}",
            live.payments, live.cents
        )?;
        write!(out, " {} {}", withdrawn.payments, withdrawn.cents)
    }
}

impl Run {
    fn with_room(room: usize) -> Run {
        Run {
            writer: Writer::by(Paper),
            output: Output::of(room),
            calls: 0,
            last_refusal: None,
            refused_movement: None,
            overwritten: false,
            batches: Vec::new(),
            has_z: false,
            put_in: PutIn::default(),
            said_at_the_close: String::new(),
        }
    }

    /// Carries a step out; the answer is that of a call.
    fn take(&mut self, step: &Step) -> Option<AnswerLine> {
        self.output.change(step);
        let call = match step {
            Step::Call(call) => call,
            _ => return None,
        };
        let answer = self.writer.call(call, &mut self.output);
        self.calls += 1;
        if answer.verdict == Verdict::Accepted {
            self.add_up(call);
        }
        if call.kind == CallKind::CloseFile && answer.verdict == Verdict::Accepted {
            self.said_at_the_close = answer.to_string();
        }
        Some(answer)
    }

    fn add_up(&mut self, call: &WriterCall) {
        let put_in = &mut self.put_in;
        put_in.records += call.records.len() as u64;
        match call.kind {
            CallKind::OpenBatch => {
                put_in.batches += 1;
                put_in.of_batch = Totals::default();
            }
            CallKind::Payment => {
                let (movement, cents) = (given_movement(call), given_amount(call));
                put_in.totals.add_payment(movement, cents);
                put_in.of_batch.add_payment(movement, cents);
            }
            CallKind::OpenFile | CallKind::CloseBatch | CallKind::CloseFile => {}
        }
    }

    /// Carries a step out and tells what is to be seen in it.
    fn watch(&mut self, step: &Step) -> Vec<Sight> {
        let sights = match step {
            Step::Call(call) => return self.watch_call(step, call),
            Step::Lend(bytes) if *bytes > self.output.memory.len() => vec![Sight::LentMoreThanAll],
            Step::Lend(_) | Step::Overwrite(_) => Vec::new(),
        };
        self.overwritten |= matches!(step, Step::Overwrite(_));
        self.take(step);
        sights
    }

    fn watch_call(&mut self, step: &Step, call: &WriterCall) -> Vec<Sight> {
        let written = self.writer.file.len();
        let refusals = self.writer.refusals(call, &self.output);
        let seen = SeenCall {
            call,
            state: &self.writer.state.clone(),
            refusals: &refusals,
        };
        let mut sights = seen.faults();
        sights.extend(seen.room(self.output.lent, self.writer.cursor));
        let answer = self.take(step);
        match answer.as_ref().map(|answer| answer.verdict) {
            Some(Verdict::Refused { number, .. }) => {
                self.last_refusal = Some(number);
                let payment = call.kind == CallKind::Payment;
                self.refused_movement = payment.then(|| given_movement(call));
            }
            _ => {
                sights.extend(seen.accepted(&self.writer.file[written..]));
                sights.extend(self.accepted(call));
                sights.extend(self.movements(call, answer));
            }
        }
        sights
    }

    /// What an accepted call shows of live and withdrawn payments.
    fn movements(&mut self, call: &WriterCall, answer: Option<AnswerLine>) -> Vec<Sight> {
        let mut sights = Vec::new();
        let direction = char::from(self.writer.state.direction.code());
        let refused = self.refused_movement.take();
        match call.kind {
            CallKind::Payment => {
                let (first, movement) = (code(call.records[0].kind), given_movement(call));
                sights.push(Sight::Paid {
                    direction,
                    first,
                    movement,
                    has_z: has_z(call),
                });
                if refused == Some(movement.other()) {
                    sights.push(Sight::PaidInsteadOfTheOther { first, movement });
                }
            }
            CallKind::CloseBatch => {
                let first = self.batches.last().map(|kind| code(kind.first_kind()));
                let mix = Mix::of(self.put_in.of_batch);
                let closed = first.zip(mix).map(|(first, mix)| Sight::ClosedBatch {
                    direction,
                    first,
                    mix,
                });
                sights.extend(closed);
            }
            CallKind::CloseFile => {
                let counted = answer.and_then(|answer| counted(&answer.numbers));
                sights.extend(counted.map(|counted| Sight::ClosedWithNumbers { counted }));
            }
            CallKind::OpenFile | CallKind::OpenBatch => {}
        }
        sights
    }

    fn accepted(&mut self, call: &WriterCall) -> Vec<Sight> {
        let mut sights = Vec::new();
        let last_refusal = self.last_refusal.take();
        sights.extend(last_refusal.map(|number| Sight::AcceptedBehind { number }));
        if self.overwritten {
            let call = char::from(call.kind.code());
            sights.push(Sight::Overwritten { call });
        }
        let batch = self.writer.state.batch();
        match call.kind {
            CallKind::OpenBatch => self.batches.extend(batch.map(|batch| batch.kind)),
            CallKind::Payment => self.has_z |= has_z(call),
            CallKind::CloseFile => sights.extend(self.closed()),
            CallKind::OpenFile | CallKind::CloseBatch => {}
        }
        sights
    }

    fn closed(&self) -> Vec<Sight> {
        let kinds = BATCH_KINDS.map(|kind| self.batches.contains(&kind));
        let direction = char::from(self.writer.state.direction.code());
        let batches = self.writer.state.batches;
        let mut sights = vec![
            Sight::Closed { direction, kinds },
            Sight::ClosedWithBatches { batches },
        ];
        let mut others = self.batches.iter().skip(1);
        let first = self.batches.first();
        let alike = first.filter(|first| self.has_z && others.all(|kind| kind == *first));
        sights.extend(alike.map(|kind| Sight::ClosedWithZ {
            first: code(kind.first_kind()),
        }));
        sights
    }
}

fn has_z(call: &WriterCall) -> bool {
    let last = call.records.last();
    last.is_some_and(|record| record.kind == RecordKind::Z)
}

/// The cents that the caller of a payment gave.
fn given_amount(call: &WriterCall) -> u64 {
    let first = &call.records[0];
    let amount = places::amount(first.kind);
    let fields = table::fields(first.kind).into_iter();
    let mut numbers = fields.zip(&first.values.numbers);
    let given = numbers.find(|(field, _)| Some(field.first) == amount.map(|part| part.first));
    given.and_then(|(_, number)| *number).unwrap_or(0)
}
