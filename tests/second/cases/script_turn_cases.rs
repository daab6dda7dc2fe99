//! Scripts with calls in and out of turn.

use crate::asking::writer_script::Step;
use crate::cases::script_cases::ScriptCases;
use crate::making::good_calls::{calls_of, steps};
use crate::making::good_files::{file_of, BatchShape};
use crate::paper::file_state::{BatchKind, Stage, State, BATCH_KINDS};
use crate::paper::record_kinds::{Direction, DIRECTIONS};
use crate::paper::writer_calls::{CallKind, WriterCall, CALL_KINDS};

const SEQUENCES: usize = 70;
const MOST_CALLS: usize = 9;
const REFUSED_HEADERS: usize = 12;
/// How many of ten calls of a sequence are the next of a good file.
const RIGHT_OF_TEN: usize = 6;
const REPEATS: usize = 2;

/// How far a writer has come, as far as that decides which calls may be made.
#[derive(Clone, Copy, PartialEq, Eq, PartialOrd, Ord, Debug)]
pub enum Standing {
    NoFile,
    NoBatch,
    EmptyBatch,
    Batch,
    BetweenBatches,
    Closed,
}

/// In the order in which the five calls that write a file of one payment lead
/// from one to the next.
pub const STANDINGS: [Standing; 6] = [
    Standing::NoFile,
    Standing::NoBatch,
    Standing::EmptyBatch,
    Standing::Batch,
    Standing::BetweenBatches,
    Standing::Closed,
];

impl Standing {
    pub fn of(state: &State) -> Standing {
        match &state.stage {
            Stage::Start => Standing::NoFile,
            Stage::BetweenBatches if state.batches == 0 => Standing::NoBatch,
            Stage::BetweenBatches => Standing::BetweenBatches,
            Stage::InBatch(batch) if batch.totals.payments() == 0 => Standing::EmptyBatch,
            Stage::InBatch(_) => Standing::Batch,
            Stage::Ended => Standing::Closed,
        }
    }
}

impl ScriptCases<'_> {
    pub fn ask_turns(&mut self) {
        for _ in 0..REPEATS {
            for (calls_before, _) in STANDINGS.iter().enumerate() {
                for kind in CALL_KINDS {
                    self.stray_call(calls_before, kind);
                }
            }
        }
        for _ in 0..SEQUENCES {
            self.sequence();
        }
        for _ in 0..REFUSED_HEADERS {
            self.header_of_another_direction();
        }
    }

    /// A file header that is refused says nothing of the file.
    fn header_of_another_direction(&mut self) {
        let kind = self.random.pick(&BATCH_KINDS);
        let direction = self.random.pick(&DIRECTIONS);
        let other = self.five_calls(direction.other(), kind);
        let mut refused = other[0].clone();
        self.put_flaw_into(&mut refused);
        let mut calls = vec![refused];
        calls.extend(self.five_calls(direction, kind));
        self.ask_calls(&calls);
    }

    /// The calls that write a file of one payment.
    pub fn five_calls(&mut self, direction: Direction, kind: BatchKind) -> Vec<WriterCall> {
        let shapes = [BatchShape { kind, payments: 1 }];
        let file = file_of(self.random, direction, &shapes);
        calls_of(self.random, &file)
    }

    /// The same for a return whose payment has a Z.
    pub fn five_calls_with_z(&mut self) -> Vec<WriterCall> {
        loop {
            let kind = self.random.pick(&BATCH_KINDS);
            let calls = self.five_calls(Direction::Return, kind);
            if calls.iter().any(|call| call.records.len() > 2) {
                return calls;
            }
        }
    }

    pub fn any_five_calls(&mut self) -> Vec<WriterCall> {
        let direction = self.random.pick(&DIRECTIONS);
        let kind = self.random.pick(&BATCH_KINDS);
        self.five_calls(direction, kind)
    }

    /// A call of this kind, good or not, at each place of a good file. With too
    /// little lent to it, it is out of turn all the same.
    fn stray_call(&mut self, calls_before: usize, kind: CallKind) {
        let calls = self.any_five_calls();
        let stray = self.any_call(kind);
        let mut script = steps(&calls[..calls_before]);
        let room = self.ample_room(&steps(&calls));
        let lent = self.random.below(4) == 0;
        if lent {
            script.push(Step::Lend(self.random.below(room)));
        }
        script.push(Step::Call(stray));
        if lent {
            script.push(Step::Lend(room));
        }
        script.extend(steps(&calls[calls_before..]));
        self.ask_with_room(&script);
    }

    /// From a file of its own, now and then with a flaw.
    pub fn any_call(&mut self, kind: CallKind) -> WriterCall {
        let calls = self.any_five_calls();
        let of_kind = calls.into_iter().find(|call| call.kind == kind);
        let mut call = of_kind.unwrap_or_else(|| unreachable!("the five calls are of all kinds"));
        if self.random.below(3) == 0 {
            self.put_flaw_into(&mut call);
        }
        call
    }

    fn sequence(&mut self) {
        let calls = self.any_five_calls();
        let mut next = 0;
        let mut made = Vec::new();
        for _ in 0..self.random.between(2, MOST_CALLS) {
            if self.random.below(10) < RIGHT_OF_TEN && next < calls.len() {
                made.push(calls[next].clone());
                next += 1;
                continue;
            }
            let kind = self.random.pick(&CALL_KINDS);
            made.push(self.any_call(kind));
        }
        if self.random.coin() {
            made.extend_from_slice(&calls[next..]);
        }
        self.ask_calls(&made);
    }
}
