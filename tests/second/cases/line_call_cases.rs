//! How the requests of single-line calls are made: files given line by line,
//! with calls between the lines that are refused and must leave the state.

use crate::asking::probe::{self, Op, Request, CALL_LENGTH_DIGITS};
use crate::cases::file_cases::FileCases;
use crate::damage::file_damage::{LINE_DAMAGES, ORDER_DAMAGES};
use crate::damage::line_flaws;
use crate::making::good_files::{any_file, MadeFile};
use crate::making::random::Random;
use crate::paper::lines::LINE_BYTES;
use crate::paper::record_kinds::{self, Subject};

const GOOD_FILES: usize = 30;
const FILES_WITH_CALLS_BETWEEN: usize = 300;
const FILES_WITH_CALLS_BEHIND: usize = 80;
const FILES_CUT_SHORT: usize = 80;
const SHUFFLED_FILES: usize = 60;
const DAMAGED_FILES: usize = 150;
const FLAWED_LINES_TRIED_TWICE: usize = 250;
const MALFORMED_PAYLOADS: usize = 80;
const MOST_CALLS_BEHIND: usize = 4;
const CALL_BETWEEN_ONCE_IN: usize = 3;
const MANY_CALLS: usize = 3_000;
const LENGTHS_TO_TRY: [usize; 9] = [0, 0, 1, 240, 241, 241, 243, 243, 484];
const LENGTH_BYTES_TO_TRY: &[u8] = b" +-/:x\n\x00\xFF";

impl FileCases<'_> {
    /// All requests of single-line calls that a stream has.
    pub fn ask_line_calls(&mut self) {
        for _ in 0..GOOD_FILES {
            let calls = any_file(self.random).calls();
            self.ask_calls(&calls);
        }
        self.calls_between();
        self.calls_behind();
        self.cut_short();
        self.shuffled();
        self.damaged_lines();
        self.flawed_lines_tried_twice();
        self.malformed_payloads();
    }

    fn calls_between(&mut self) {
        for _ in 0..FILES_WITH_CALLS_BETWEEN {
            let file = any_file(self.random);
            let mut calls = Vec::new();
            for (at, line) in file.lines.iter().enumerate() {
                while self.random.below(CALL_BETWEEN_ONCE_IN) == 0 {
                    calls.push(self.stray_call(&file, at));
                }
                calls.push(line.bytes.clone());
            }
            self.ask_calls(&calls);
        }
    }

    /// A call that will hardly be accepted in front of the given line.
    fn stray_call(&mut self, file: &MadeFile, at: usize) -> Vec<u8> {
        let next = &file.lines[at].bytes;
        match self.random.below(8) {
            0 | 1 => self.of_another_length(next),
            2 => file.lines[at.saturating_sub(1)].bytes.clone(),
            3 => file.lines[self.random.below(file.lines.len())]
                .bytes
                .clone(),
            4 => {
                let mut others = any_file(self.random).lines;
                others.swap_remove(at % others.len()).bytes
            }
            5 => (0..LINE_BYTES).map(|_| self.random.byte()).collect(),
            _ => self.damaged_line(file, at),
        }
    }

    fn of_another_length(&mut self, line: &[u8]) -> Vec<u8> {
        let length = self.random.pick(&LENGTHS_TO_TRY);
        line.iter().copied().cycle().take(length).collect()
    }

    pub fn damaged_line(&mut self, file: &MadeFile, at: usize) -> Vec<u8> {
        let lines = vec![file.lines[at].clone()];
        let mut alone = MadeFile { lines, ..*file };
        if self.random.coin() {
            self.random.pick(&LINE_DAMAGES)(self.random, &mut alone);
        } else {
            let (kind, direction) = (file.lines[at].kind, file.direction);
            let flaws = line_flaws::some_flaws(self.random, Subject { kind, direction }, 1);
            line_flaws::spoil_line(self.random, &mut alone, 0, &flaws);
        }
        alone.lines.swap_remove(0).bytes
    }

    /// Behind type 9 every call is refused, even an empty one.
    fn calls_behind(&mut self) {
        for _ in 0..FILES_WITH_CALLS_BEHIND {
            let file = any_file(self.random);
            let mut calls = file.calls();
            for _ in 0..self.random.between(1, MOST_CALLS_BEHIND) {
                let at = self.random.below(file.lines.len());
                let call = match self.random.below(3) {
                    0 => file.lines[at].bytes.clone(),
                    1 => self.of_another_length(&file.lines[at].bytes),
                    _ => self.stray_call(&file, at),
                };
                calls.push(call);
            }
            self.ask_calls(&calls);
        }
    }

    /// The end declared too early, often straight after a refused call.
    fn cut_short(&mut self) {
        for _ in 0..FILES_CUT_SHORT {
            let file = any_file(self.random);
            let kept = self.random.below(file.lines.len());
            let mut calls = file.calls();
            calls.truncate(kept);
            if self.random.coin() {
                calls.push(self.stray_call(&file, kept));
            }
            self.ask_calls(&calls);
        }
    }

    fn shuffled(&mut self) {
        for _ in 0..SHUFFLED_FILES {
            let file = any_file(self.random);
            let mut calls = file.calls();
            if self.random.coin() {
                calls.extend(file.calls());
            }
            self.random.shuffle(&mut calls[1..]);
            self.ask_calls(&calls);
        }
    }

    /// After the refused line the others come all the same.
    fn damaged_lines(&mut self) {
        for _ in 0..DAMAGED_FILES {
            let damage = if self.random.coin() {
                self.random.pick(&LINE_DAMAGES)
            } else {
                self.random.pick(&ORDER_DAMAGES)
            };
            let mut file = self.damaged(damage);
            if self.random.coin() {
                self.perhaps_renumber(&mut file);
            }
            self.ask_calls(&file.calls());
        }
    }

    /// The flawed line first and the right one behind it.
    fn flawed_lines_tried_twice(&mut self) {
        let subjects: Vec<_> = record_kinds::all_subjects().collect();
        for _ in 0..FLAWED_LINES_TRIED_TWICE {
            let subject = self.random.pick(&subjects);
            let count = self.random.between(1, 2);
            let flaws = line_flaws::some_flaws(self.random, subject, count);
            if let Some((good, flawed, at)) = self.flawed_beside_good(subject, &flaws) {
                let mut calls = good.calls();
                calls.insert(at, flawed);
                self.ask_calls(&calls);
            }
        }
    }

    fn malformed_payloads(&mut self) {
        for _ in 0..MALFORMED_PAYLOADS {
            let file = any_file(self.random);
            let calls = file.lines.iter().map(|line| line.bytes.as_slice());
            let mut payload = probe::payload_of_calls(calls);
            self.spoil_payload(&mut payload);
            self.ask(Op::CheckLines, payload);
        }
    }

    /// In the length of some call, or at the end.
    fn spoil_payload(&mut self, payload: &mut Vec<u8>) {
        let whole_call = CALL_LENGTH_DIGITS + LINE_BYTES;
        let call = self.random.below(payload.len() / whole_call) * whole_call;
        let digit = call + self.random.below(CALL_LENGTH_DIGITS);
        match self.random.below(6) {
            0 => payload[digit] = self.random.pick(LENGTH_BYTES_TO_TRY),
            1 => payload[digit] = self.random.other_digit(payload[digit]),
            2 => payload.truncate(digit),
            3 => payload.truncate(self.random.below(payload.len())),
            4 => payload.extend_from_slice(&b"00024200"[..self.random.between(1, 8)]),
            _ => {
                payload.remove(digit);
            }
        }
    }
}

/// Requests that are made once: no call at all, and very many.
pub fn unlikely_calls(random: &mut Random) -> Vec<Request> {
    let mut cases = FileCases::new(random);
    cases.ask_calls(&[]);
    cases.ask_calls(&vec![Vec::new(); MANY_CALLS]);
    let whole = any_file(cases.random).bytes();
    cases.ask_calls(&[whole]);
    cases.requests
}
