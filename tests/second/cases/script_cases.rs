//! How the scripts for the writer are made: from calls that write good files,
//! spoiled in one way or several. Every script is made by the rules of document
//! 01 alone, so that a seeded fault changes what is expected and never what is
//! asked.

use crate::asking::probe::{Op, Request, UNUSED};
use crate::asking::writer_script::{self, Step};
use crate::making::good_calls::{calls_of, records_in, small_file, steps, Frame};
use crate::making::good_files::{any_file, file_of, BatchShape, MadeFile};
use crate::making::random::Random;
use crate::paper::file_state::BATCH_KINDS;
use crate::paper::lines::LINE_BYTES;
use crate::paper::record_kinds::{Direction, DIRECTIONS};
use crate::paper::writer::{Output, Writer};
use crate::paper::writer_calls::WriterCall;
use crate::paper::Paper;

const GOOD_FILES: usize = 60;
const GOOD_FILES_OF_A_SHAPE: usize = 6;
const MOST_BATCHES: usize = 4;
/// Bytes behind all records, which the calls must leave as they are.
const SPARE_ROOMS: [usize; 5] = [0, 0, 1, 60, 242];

/// What scripts are made with.
pub struct ScriptCases<'a> {
    pub random: &'a mut Random,
    pub requests: Vec<Request>,
}

impl ScriptCases<'_> {
    pub fn new(random: &mut Random) -> ScriptCases<'_> {
        let requests = Vec::new();
        ScriptCases { random, requests }
    }

    /// All scripts that each stream has.
    pub fn ask_all(&mut self) {
        self.good_files();
        self.ask_fields();
        self.ask_kinds();
        self.ask_turns();
        self.ask_pairs();
        self.ask_rooms();
        self.ask_mixtures();
        self.ask_malformed();
    }

    /// A file that the script closes is read as well: what was put in has to
    /// come out again.
    pub fn ask(&mut self, script: &[Step], room: usize) {
        let payload = writer_script::to_payload(script);
        self.requests
            .push(Request::new(Op::WriteFile, UNUSED, room, payload));
        if let Some(file) = closed_file(script, room) {
            self.requests
                .push(Request::new(Op::CheckFile, UNUSED, 0, file));
        }
    }

    /// With room for all records, so that the calls alone decide.
    pub fn ask_with_room(&mut self, script: &[Step]) {
        let room = self.ample_room(script);
        self.ask(script, room);
    }

    pub fn ask_calls(&mut self, calls: &[WriterCall]) {
        self.ask_with_room(&steps(calls));
    }

    pub fn ample_room(&mut self, script: &[Step]) -> usize {
        records_in(script) * LINE_BYTES + self.random.pick(&SPARE_ROOMS)
    }

    /// The call of the frame's record is made as it is now. Behind it may come
    /// the good one, alone or with all that follows: a refusal leaves the state.
    pub fn ask_spoiled(&mut self, good: &Frame, spoiled: &Frame) {
        let at = good.spot.call;
        let mut calls = good.calls[..at].to_vec();
        calls.push(spoiled.call().clone());
        match self.random.below(5) {
            0 | 1 => {}
            2 | 3 => calls.push(good.call().clone()),
            _ => calls.extend_from_slice(&good.calls[at..]),
        }
        self.ask_calls(&calls);
    }

    fn good_files(&mut self) {
        for _ in 0..GOOD_FILES {
            let file = any_file(self.random);
            self.ask_file(&file);
        }
        for direction in DIRECTIONS {
            for kind in BATCH_KINDS {
                for _ in 0..GOOD_FILES_OF_A_SHAPE {
                    let file = small_file(self.random, direction, kind);
                    self.ask_file(&file);
                }
            }
            for _ in 0..GOOD_FILES_OF_A_SHAPE {
                let file = self.mixed_file(direction);
                self.ask_file(&file);
            }
        }
    }

    fn ask_file(&mut self, file: &MadeFile) {
        let calls = calls_of(self.random, file);
        self.ask_calls(&calls);
    }

    /// Batches of all kinds in turn.
    fn mixed_file(&mut self, direction: Direction) -> MadeFile {
        let mut kinds = BATCH_KINDS;
        self.random.shuffle(&mut kinds);
        let batches = self.random.between(2, MOST_BATCHES);
        let shapes = kinds.into_iter().cycle().take(batches).map(|kind| {
            let payments = self.random.between(1, 2);
            BatchShape { kind, payments }
        });
        let shapes: Vec<BatchShape> = shapes.collect();
        file_of(self.random, direction, &shapes)
    }
}

/// The bytes of the file that a script has closed at its end, if it has.
pub fn closed_file(script: &[Step], room: usize) -> Option<Vec<u8>> {
    let mut output = Output::of(room);
    let mut writer = Writer::by(Paper);
    for step in script {
        match step {
            Step::Call(call) => drop(writer.call(call, &mut output)),
            other => output.change(other),
        }
    }
    writer.state.has_ended().then_some(writer.file)
}
