//! How the requests of files in parts are made: good files of every shape and
//! damaged ones, cut in many ways.

use crate::asking::part_calls::{self, BYTES_BEFORE_A_PART};
use crate::asking::probe::Op;
use crate::cases::file_cases::FileCases;
use crate::cases::withdrawn_cases::{misleading_file, mixed_batches};
use crate::damage::file_damage::{self, LINE_DAMAGES, ORDER_DAMAGES};
use crate::damage::line_flaws;
use crate::damage::malformed_parts::CHANGES;
use crate::making::cuttings::{any_cutting, cut_at};
use crate::making::good_files::any_file;
use crate::paper::lines::LINE_BYTES;
use crate::paper::parts::PartCall;
use crate::paper::record_kinds::{self, Subject, DIRECTIONS};

const GOOD_FILES: usize = 300;
const FILES_PER_LINE_DAMAGE: usize = 40;
const FILES_PER_ORDER_DAMAGE: usize = 40;
const FILES_WITH_DAMAGED_BYTES: usize = 200;
const FLAWED_LINES: usize = 200;
const MOST_FLAWS: usize = 2;
const FILES_CUT_SHORT: usize = 100;
const LINES_NEVER_WHOLE: usize = 150;
const FILES_WITH_BYTES_BEHIND: usize = 200;
const REPEATS_PER_CHANGE: usize = 12;
/// Among them those that might be taken for the end of a file.
const BYTES_BEHIND: &[u8] = b" \r\n\x1A\x00\xFF09";

impl FileCases<'_> {
    pub fn ask_parts(&mut self, calls: &[PartCall]) {
        self.ask(Op::CheckParts, part_calls::to_payload(calls));
    }

    /// These parts, and then the end.
    pub fn ask_cut_file(&mut self, parts: Vec<&[u8]>) {
        let mut calls = calls_of(parts);
        calls.push(PartCall::End);
        self.ask_parts(&calls);
    }

    pub fn ask_in_parts(&mut self, bytes: &[u8]) {
        let parts = any_cutting(self.random, bytes);
        self.ask_cut_file(parts);
    }

    /// All requests of files in parts that a stream has.
    pub fn ask_files_in_parts(&mut self) {
        for _ in 0..GOOD_FILES {
            let file = any_file(self.random);
            self.ask_in_parts(&file.bytes());
        }
        self.withdrawn_in_parts();
        self.damaged_in_parts();
        self.flawed_lines_in_parts();
        self.cut_short_in_parts();
        self.lines_never_whole();
        self.bytes_behind_in_parts();
        self.ask_orders_of_calls();
        self.malformed_parts();
    }

    fn withdrawn_in_parts(&mut self) {
        for direction in DIRECTIONS {
            for mix in mixed_batches() {
                let file = misleading_file(self.random, direction, &[&mix]);
                self.ask_in_parts(&file.bytes());
            }
        }
    }

    fn damaged_in_parts(&mut self) {
        for damage in LINE_DAMAGES {
            for _ in 0..FILES_PER_LINE_DAMAGE {
                let file = self.damaged(damage);
                self.ask_in_parts(&file.bytes());
            }
        }
        for damage in ORDER_DAMAGES {
            for _ in 0..FILES_PER_ORDER_DAMAGE {
                let mut file = self.damaged(damage);
                self.perhaps_renumber(&mut file);
                self.ask_in_parts(&file.bytes());
            }
        }
        for _ in 0..FILES_WITH_DAMAGED_BYTES {
            let mut bytes = any_file(self.random).bytes();
            file_damage::damage_bytes(self.random, &mut bytes);
            self.ask_in_parts(&bytes);
        }
    }

    fn flawed_lines_in_parts(&mut self) {
        for _ in 0..FLAWED_LINES {
            let bytes = self.flawed_file();
            self.ask_in_parts(&bytes);
        }
    }

    /// A file with a flaw or two in one of its lines.
    pub fn flawed_file(&mut self) -> Vec<u8> {
        let subjects: Vec<Subject> = record_kinds::all_subjects().collect();
        loop {
            let subject = self.random.pick(&subjects);
            let count = self.random.between(1, MOST_FLAWS);
            let flaws = line_flaws::some_flaws(self.random, subject, count);
            if let Some((mut file, flawed, at)) = self.flawed_beside_good(subject, &flaws) {
                file.lines[at].bytes = flawed;
                return file.bytes();
            }
        }
    }

    /// In a line, at a line end, or before the first byte.
    fn cut_short_in_parts(&mut self) {
        for _ in 0..FILES_CUT_SHORT {
            let bytes = any_file(self.random).bytes();
            let in_a_line = self.random.below(bytes.len());
            let at_a_line_end = in_a_line / LINE_BYTES * LINE_BYTES;
            let kept = self.random.pick(&[in_a_line, at_a_line_end]);
            self.ask_in_parts(&bytes[..kept]);
        }
    }

    /// Whatever is wrong with them, they are only too short at the end.
    fn lines_never_whole(&mut self) {
        for _ in 0..LINES_NEVER_WHOLE {
            let bytes = self.begun_wrongly();
            self.ask_in_parts(&bytes);
        }
    }

    /// Good lines, and then the beginning of one that is damaged, of any bytes,
    /// or out of turn.
    pub fn begun_wrongly(&mut self) -> Vec<u8> {
        let file = any_file(self.random);
        let at = self.random.below(file.lines.len());
        let begun = self.random.between(1, LINE_BYTES - 1);
        let line = match self.random.below(4) {
            0 => vec![self.random.byte(); LINE_BYTES],
            1 => (0..LINE_BYTES).map(|_| self.random.byte()).collect(),
            2 => file.lines[file.lines.len() - 1 - at].bytes.clone(),
            _ => self.damaged_line(&file, at),
        };
        let mut bytes = file.bytes();
        bytes.truncate(at * LINE_BYTES);
        bytes.extend_from_slice(&line[..begun]);
        bytes
    }

    /// In the part that brings the type 9 line, in the next, or behind an empty
    /// one.
    fn bytes_behind_in_parts(&mut self) {
        for _ in 0..FILES_WITH_BYTES_BEHIND {
            let file = any_file(self.random).bytes();
            let behind = self.bytes_behind(&file);
            let bytes = [file.as_slice(), &behind].concat();
            let end = file.len();
            let parts = match self.random.below(4) {
                0 => cut_at(&bytes, &[]),
                1 => cut_at(&bytes, &[end]),
                2 => cut_at(&bytes, &[end, end]),
                _ => any_cutting(self.random, &bytes),
            };
            self.ask_cut_file(parts);
        }
    }

    /// One byte, part of a line, a whole one, or the file once more.
    pub fn bytes_behind(&mut self, file: &[u8]) -> Vec<u8> {
        let one = self.random.pick(BYTES_BEHIND);
        let length = self.random.between(1, LINE_BYTES - 1);
        match self.random.below(5) {
            0 => vec![one],
            1 => vec![one; length],
            2 => file[..LINE_BYTES].to_vec(),
            3 => file[file.len() - LINE_BYTES..].to_vec(),
            _ => file.to_vec(),
        }
    }

    fn malformed_parts(&mut self) {
        for change in CHANGES {
            for _ in 0..REPEATS_PER_CHANGE {
                let bytes = any_file(self.random).bytes();
                let parts = any_cutting(self.random, &bytes);
                let changed = self.random.below(parts.len());
                let before = parts[..changed].iter();
                let at = before.map(|part| BYTES_BEFORE_A_PART + part.len()).sum();
                let mut calls = calls_of(parts);
                if self.random.coin() {
                    calls.push(PartCall::End);
                }
                let mut payload = part_calls::to_payload(&calls);
                change(self.random, &mut payload, at);
                self.ask(Op::CheckParts, payload);
            }
        }
    }
}

pub fn calls_of(parts: Vec<&[u8]>) -> Vec<PartCall<'_>> {
    parts.into_iter().map(PartCall::Part).collect()
}
