//! Scripts that put live and withdrawn payments in.

use crate::asking::writer_script::Step;
use crate::cases::script_cases::ScriptCases;
use crate::cases::script_room_cases::MORE_THAN_ALL;
use crate::cases::withdrawn_cases::{misleading_file, mixed_file, MixedBatch};
use crate::cases::withdrawn_cases::{mixed_batches, pairs_of_mixed_batches};
use crate::making::good_calls::calls_of;
use crate::making::good_files::MadeFile;
use crate::making::movements::{give_movement, given_movement};
use crate::paper::lines::LINE_BYTES;
use crate::paper::record_kinds::{Direction, DIRECTIONS};
use crate::paper::writer_calls::{CallKind, WriterCall};

impl ScriptCases<'_> {
    pub fn ask_withdrawn(&mut self) {
        for direction in DIRECTIONS {
            for mix in mixed_batches() {
                self.ask_mix(direction, &[&mix]);
                self.refused_beside(direction, &mix);
            }
            for (first, second) in pairs_of_mixed_batches() {
                let file = misleading_file(self.random, direction, &[&first, &second]);
                self.ask_calls_of(&file);
            }
        }
    }

    fn ask_mix(&mut self, direction: Direction, batches: &[&MixedBatch]) {
        for make in [mixed_file, misleading_file] {
            let file = make(self.random, direction, batches);
            self.ask_calls_of(&file);
        }
    }

    fn ask_calls_of(&mut self, file: &MadeFile) {
        let calls = calls_of(self.random, file);
        self.ask_calls(&calls);
    }

    /// Each payment is given before in vain, live where it is withdrawn and the
    /// other way round, with a flaw and without room.
    fn refused_beside(&mut self, direction: Direction, mix: &MixedBatch) {
        let file = misleading_file(self.random, direction, &[mix]);
        let calls = calls_of(self.random, &file);
        let mut script = Vec::new();
        let mut cursor = 0;
        for call in calls {
            let records = call.records.len();
            if call.kind == CallKind::Payment {
                let other = of_the_other_movement(&call);
                let mut flawed = other.clone();
                self.put_flaw_into(&mut flawed);
                let too_little = self.random.below(records * LINE_BYTES);
                script.push(Step::Call(flawed));
                script.push(Step::Lend(cursor + too_little));
                script.push(Step::Call(other));
                script.push(Step::Lend(MORE_THAN_ALL));
            }
            script.push(Step::Call(call));
            cursor += records * LINE_BYTES;
        }
        self.ask(&script, cursor);
    }
}

fn of_the_other_movement(call: &WriterCall) -> WriterCall {
    let mut other = call.clone();
    give_movement(&mut other, given_movement(call).other());
    other
}
