//! How the requests about whole files are made: good files of every shape, and
//! files damaged in one way or several. Every file is made by the rules of
//! document 01 alone, so that a seeded fault changes what is expected and
//! never what is asked.

use crate::asking::probe::{self, Op, Request, BYTES_LIMIT, DIRECTIONS};
use crate::damage::file_damage::{self, Damage, LINE_DAMAGES, ORDER_DAMAGES};
use crate::damage::line_flaws::{self, Flaw, BOLETO_FLAWS};
use crate::making::good_files::{self, any_file, BatchShape, MadeFile};
use crate::making::random::Random;
use crate::paper::file_state::{BatchKind, BATCH_KINDS};
use crate::paper::record_kinds::{self, Direction, RecordKind, Subject};

/// The header of a request about a file has this room, which is not used.
const NO_ROOM: usize = 0;
const GOOD_FILES: usize = 80;
const FILES_PER_LINE_DAMAGE: usize = 90;
const FILES_PER_ORDER_DAMAGE: usize = 60;
const FILES_WITH_DAMAGED_BYTES: usize = 200;
const FILES_WITH_SEVERAL_DAMAGES: usize = 200;
const MOST_DAMAGES: usize = 3;
const LINES_WITH_FLAWS: usize = 500;
const MOST_FLAWS: usize = 3;
const REPEATS_PER_BOLETO_FLAWS: usize = 4;
/// Of a file with a flaw in one line.
const MOST_BATCHES: usize = 2;
const MOST_PAYMENTS: usize = 2;

/// A good file, and what is given in the place of one of its lines.
pub struct Replaced {
    pub file: MadeFile,
    pub at: usize,
    pub line: Vec<u8>,
}

impl Replaced {
    pub fn bytes(mut self) -> Vec<u8> {
        self.file.lines[self.at].bytes = self.line;
        self.file.bytes()
    }

    /// The line in vain, and then all lines as they should be.
    pub fn calls(self) -> Vec<Vec<u8>> {
        let mut calls = self.file.calls();
        calls.insert(self.at, self.line);
        calls
    }
}

/// What requests about files are made with, whole files and single lines alike.
pub struct FileCases<'a> {
    pub random: &'a mut Random,
    pub requests: Vec<Request>,
}

impl FileCases<'_> {
    pub fn new(random: &mut Random) -> FileCases<'_> {
        let requests = Vec::new();
        FileCases { random, requests }
    }

    pub fn ask(&mut self, op: Op, payload: Vec<u8>) {
        let direction = self.random.pick(&DIRECTIONS);
        let request = Request::new(op, direction, NO_ROOM, payload);
        self.requests.push(request);
    }

    pub fn ask_file(&mut self, bytes: Vec<u8>) {
        self.ask(Op::CheckFile, bytes);
    }

    pub fn ask_calls(&mut self, calls: &[Vec<u8>]) {
        let calls = calls.iter().map(Vec::as_slice);
        self.ask(Op::CheckLines, probe::payload_of_calls(calls));
    }

    /// All requests about whole files that a stream has.
    pub fn ask_files(&mut self) {
        for _ in 0..GOOD_FILES {
            let file = any_file(self.random);
            self.ask_file(file.bytes());
        }
        self.damaged_files();
        self.several_damages();
        self.flaws_on_a_line();
        self.flaws_of_boletos();
    }

    fn damaged_files(&mut self) {
        for damage in LINE_DAMAGES {
            for _ in 0..FILES_PER_LINE_DAMAGE {
                let file = self.damaged(damage);
                self.ask_file(file.bytes());
            }
        }
        for damage in ORDER_DAMAGES {
            for _ in 0..FILES_PER_ORDER_DAMAGE {
                let mut file = self.damaged(damage);
                self.perhaps_renumber(&mut file);
                self.ask_file(file.bytes());
            }
        }
        for _ in 0..FILES_WITH_DAMAGED_BYTES {
            let mut bytes = any_file(self.random).bytes();
            file_damage::damage_bytes(self.random, &mut bytes);
            self.ask_file(bytes);
        }
    }

    pub fn damaged(&mut self, damage: Damage) -> MadeFile {
        let mut file = any_file(self.random);
        damage(self.random, &mut file);
        file
    }

    /// Renumbered lines are refused for their order and not for their numbers.
    pub fn perhaps_renumber(&mut self, file: &mut MadeFile) {
        if self.random.below(3) > 0 {
            file.renumber();
        }
    }

    fn several_damages(&mut self) {
        for _ in 0..FILES_WITH_SEVERAL_DAMAGES {
            let mut file = any_file(self.random);
            if self.random.coin() {
                self.random.pick(&ORDER_DAMAGES)(self.random, &mut file);
                self.perhaps_renumber(&mut file);
            }
            for _ in 0..self.random.between(1, MOST_DAMAGES) {
                self.random.pick(&LINE_DAMAGES)(self.random, &mut file);
            }
            let mut bytes = file.bytes();
            if self.random.below(8) == 0 {
                file_damage::damage_bytes(self.random, &mut bytes);
            }
            self.ask_file(bytes);
        }
    }

    /// Every two flaws of every kind of line, so that their order is tested,
    /// and each flaw alone.
    pub fn ask_pairs_of_flaws(&mut self) {
        for subject in record_kinds::all_subjects() {
            let flaws = line_flaws::flaws_of(subject);
            for (index, first) in flaws.iter().enumerate() {
                self.ask_with_flaws(subject, &[*first]);
                for second in &flaws[index + 1..] {
                    self.ask_with_flaws(subject, &[*first, *second]);
                }
            }
        }
    }

    fn flaws_on_a_line(&mut self) {
        let subjects: Vec<Subject> = record_kinds::all_subjects().collect();
        for _ in 0..LINES_WITH_FLAWS {
            let subject = self.random.pick(&subjects);
            let count = self.random.between(1, MOST_FLAWS);
            let flaws = line_flaws::some_flaws(self.random, subject, count);
            self.ask_with_flaws(subject, &flaws);
        }
    }

    /// Every combination of the flaws that only a boleto has.
    fn flaws_of_boletos(&mut self) {
        let kind = RecordKind::J;
        for flaws in 0..1 << BOLETO_FLAWS.len() {
            for direction in record_kinds::DIRECTIONS {
                for _ in 0..REPEATS_PER_BOLETO_FLAWS {
                    let has = |flaw: usize| flaws >> flaw & 1 == 1;
                    let chosen = (0..BOLETO_FLAWS.len()).filter(|flaw| has(*flaw));
                    let chosen: Vec<Flaw> = chosen.map(|flaw| BOLETO_FLAWS[flaw]).collect();
                    self.ask_with_flaws(Subject { kind, direction }, &chosen);
                }
            }
        }
    }

    fn ask_with_flaws(&mut self, subject: Subject, flaws: &[Flaw]) {
        if let Some((mut file, flawed, at)) = self.flawed_beside_good(subject, flaws) {
            file.lines[at].bytes = flawed;
            self.ask_file(file.bytes());
        }
    }

    /// A good file, one of its lines of the wanted kind with flaws, and that
    /// line's place; nothing for the Z that a remittance does not have.
    pub fn flawed_beside_good(
        &mut self,
        subject: Subject,
        flaws: &[Flaw],
    ) -> Option<(MadeFile, Vec<u8>, usize)> {
        if subject.kind == RecordKind::Z && subject.direction == Direction::Remittance {
            return None;
        }
        let good = self.file_with(subject);
        let at = self.random.pick(&good.positions(subject.kind));
        let mut spoiled = good.clone();
        line_flaws::spoil_line(self.random, &mut spoiled, at, flaws);
        let flawed = spoiled.lines.swap_remove(at).bytes;
        Some((good, flawed, at))
    }

    fn file_with(&mut self, subject: Subject) -> MadeFile {
        loop {
            let kind = BatchKind::with_record(subject.kind);
            let kind = kind.unwrap_or_else(|| self.random.pick(&BATCH_KINDS));
            let batches = (0..self.random.between(1, MOST_BATCHES)).map(|_| BatchShape {
                kind,
                payments: self.random.between(1, MOST_PAYMENTS),
            });
            let batches: Vec<BatchShape> = batches.collect();
            let file = good_files::file_of(self.random, subject.direction, &batches);
            if !file.positions(subject.kind).is_empty() {
                return file;
            }
        }
    }
}

/// Requests that are made once: files that are no files at all.
pub fn unlikely_files(random: &mut Random) -> Vec<Request> {
    let mut cases = FileCases::new(random);
    for length in [0, 1, 7, 240, 241, 242, 243, 484, 65_340, BYTES_LIMIT] {
        for byte in b" 0\n\xFF" {
            cases.ask_file(vec![*byte; length]);
        }
    }
    cases.requests
}
