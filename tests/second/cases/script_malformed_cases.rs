//! Payloads that are no scripts.

use crate::asking::probe::{Op, Request, UNUSED};
use crate::asking::writer_script;
use crate::cases::script_cases::ScriptCases;
use crate::damage::malformed_scripts::{bytes_of, Change, CHANGES};
use crate::making::good_calls::steps;

const REPEATS: usize = 8;
const ROOMS: [usize; 3] = [0, 300, 2_000];

impl ScriptCases<'_> {
    pub fn ask_malformed(&mut self) {
        for change in CHANGES {
            for _ in 0..REPEATS {
                self.malformed(change);
            }
        }
    }

    fn malformed(&mut self, change: Change) {
        let calls = self.any_five_calls();
        let kept = self.random.between(1, calls.len());
        let mut payload = writer_script::to_payload(&steps(&calls[..kept]));
        let changed = self.random.below(kept);
        let at = calls[..changed].iter().map(bytes_of).sum();
        change(self.random, &mut payload, at);
        let room = self.random.pick(&ROOMS);
        self.requests
            .push(Request::new(Op::WriteFile, UNUSED, room, payload));
    }
}
