//! Scripts in which all that can happen to a file happens together, and the few
//! long ones that document 01's limits ask for.

use crate::asking::writer_script::Step;
use crate::cases::script_cases::ScriptCases;
use crate::cases::script_room_cases::MORE_THAN_ALL;
use crate::making::good_calls::{calls_of, steps};
use crate::making::good_files::{any_file, file_of, put_amount, BatchShape, LARGEST_AMOUNT};
use crate::paper::file_state::{BatchKind, BATCH_KINDS};
use crate::paper::lines::{LINE_BYTES, MOST_BATCHES};
use crate::paper::record_kinds::{Direction, DIRECTIONS};
use crate::paper::totals::Movement::{self, Live, Withdrawn};
use crate::paper::writer_calls::{CallKind, WriterCall, CALL_KINDS};

const MIXTURES: usize = 150;
const MOST_CALLS_BEHIND: usize = 3;
/// A request can hold them even if most have a Z.
const LONG_PAYMENTS: usize = 380;
const SOME_PAYMENTS: usize = 12;

impl ScriptCases<'_> {
    pub fn ask_mixtures(&mut self) {
        for _ in 0..MIXTURES {
            self.mixture();
        }
    }

    fn mixture(&mut self) {
        let file = any_file(self.random);
        let calls = calls_of(self.random, &file);
        let room = self.ample_room(&steps(&calls));
        let mut script = Vec::new();
        for call in calls {
            while self.random.below(3) == 0 {
                let step = self.stray_step(&call, room);
                script.push(step);
            }
            script.push(Step::Call(call));
        }
        for _ in 0..self.random.below(MOST_CALLS_BEHIND + 1) {
            let kind = self.random.pick(&CALL_KINDS);
            script.push(Step::Call(self.any_call(kind)));
        }
        self.ask(&script, room);
    }

    /// Something that may come between the calls of a good file.
    fn stray_step(&mut self, next: &WriterCall, room: usize) -> Step {
        match self.random.below(8) {
            0 => Step::Overwrite(self.random.byte()),
            1 => Step::Lend(self.random.below(room + 1)),
            2 => Step::Lend(room),
            3 => Step::Lend(MORE_THAN_ALL),
            4 => {
                let kind = self.random.pick(&CALL_KINDS);
                Step::Call(self.any_call(kind))
            }
            _ => {
                let mut call = next.clone();
                self.put_flaw_into(&mut call);
                Step::Call(call)
            }
        }
    }

    /// Scripts that are made once, being long.
    pub fn ask_long(&mut self) {
        for direction in DIRECTIONS {
            for kind in BATCH_KINDS {
                self.as_many_batches_as_may_be(direction, kind);
                self.many_payments(direction, kind, SOME_PAYMENTS);
            }
        }
        self.many_payments(Direction::Return, BatchKind::Credit, LONG_PAYMENTS);
        for movements in [&[Withdrawn][..], &[Live, Withdrawn]] {
            self.long_mix(movements);
        }
    }

    /// 70 batches, and a 71st that is opened whenever it must not be: while the
    /// last one is open, behind it, and behind the end.
    fn as_many_batches_as_may_be(&mut self, direction: Direction, kind: BatchKind) {
        let shapes = (0..MOST_BATCHES).map(|_| BatchShape { kind, payments: 1 });
        let shapes: Vec<BatchShape> = shapes.collect();
        let file = file_of(self.random, direction, &shapes);
        let calls = calls_of(self.random, &file);
        let records = file.lines.len();
        let last_header = calls
            .iter()
            .rposition(|call| call.kind == CallKind::OpenBatch);
        let mut script = Vec::new();
        for (at, call) in calls.iter().enumerate() {
            if Some(at) == last_header {
                let refused = self.flawed(call);
                script.push(Step::Call(refused));
            }
            if call.kind == CallKind::CloseFile {
                script.extend(self.batches_too_many(&calls[1]));
            }
            script.push(Step::Call(call.clone()));
            if Some(at) == last_header || call.kind == CallKind::CloseFile {
                script.push(Step::Call(calls[1].clone()));
            }
        }
        self.ask(&script, records * LINE_BYTES);
    }

    /// Good, with flaws, and without room for it.
    fn batches_too_many(&mut self, good: &WriterCall) -> Vec<Step> {
        let mut script = vec![Step::Call(good.clone())];
        for _ in 0..4 {
            let flawed = self.flawed(good);
            script.push(Step::Call(flawed));
        }
        script.push(Step::Lend(self.random.below(LINE_BYTES)));
        script.push(Step::Call(good.clone()));
        let flawed = self.flawed(good);
        script.push(Step::Call(flawed));
        script.push(Step::Lend(MORE_THAN_ALL));
        script
    }

    fn flawed(&mut self, good: &WriterCall) -> WriterCall {
        let mut call = good.clone();
        self.put_flaw_into(&mut call);
        call
    }

    /// Detail numbers, counts and sums of many digits.
    fn many_payments(&mut self, direction: Direction, kind: BatchKind, payments: usize) {
        let mut file = file_of(self.random, direction, &[BatchShape { kind, payments }]);
        for at in file.payments() {
            put_amount(&mut file.lines[at], LARGEST_AMOUNT);
        }
        let calls = calls_of(self.random, &file);
        self.ask_calls(&calls);
    }

    /// More withdrawn payments than a byte counts, or half as many.
    fn long_mix(&mut self, movements: &[Movement]) {
        let (kind, payments) = (BatchKind::Boleto, LONG_PAYMENTS);
        let shapes = [BatchShape { kind, payments }];
        let mut file = file_of(self.random, Direction::Remittance, &shapes);
        file.put_movements(movements);
        let calls = calls_of(self.random, &file);
        self.ask_calls(&calls);
    }
}
