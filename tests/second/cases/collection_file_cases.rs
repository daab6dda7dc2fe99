//! The requests about files with batches of O records: as a whole, line by line
//! and in parts.

use crate::cases::file_cases::{FileCases, Replaced};
use crate::damage::collection_flaws::{codes_of_note, one_of_each_number};
use crate::damage::line_flaws::{spoil_line, CODE_FLAWS};
use crate::damage::record_flaws::{self, fields_to_spoil};
use crate::making::cuttings::cut_at;
use crate::making::good_files::{
    file_of, put_amount, record_for_a_file, BatchShape, MadeFile, MadeLine,
};
use crate::paper::file_state::{BatchKind, BATCH_KINDS};
use crate::paper::lines::{LINE_BYTES, LINE_END};
use crate::paper::places::{AMOUNT_OF_O, BATCH_SUM, CODE, SEGMENT, SERVICE_AND_FORM};
use crate::paper::record_kinds::{Direction, RecordKind, Subject, DIRECTIONS, RECORD_KINDS};

const REPEATS_PER_FLAWS: usize = 3;
const MOST_PAYMENTS: usize = 3;
const FILES_OF_A_SHAPE: usize = 3;
/// Among them the right ones of all kinds of batches.
const PAIRS: [&[u8]; 17] = [
    b"2911", b"2910", b"2901", b"2930", b"2931", b"2911", b"2012", b"2011", b"2211", b"0311",
    b"0111", b"9811", b"1129", b"291 ", b"2041", b"0330", b"0130",
];
const O: RecordKind = RecordKind::O;

impl FileCases<'_> {
    pub fn ask_collections(&mut self) {
        for file in self.files_with_collections() {
            self.ask_file(file.bytes());
            self.ask_calls(&file.calls());
        }
        for replaced in self.lines_with_codes() {
            self.ask_file(replaced.bytes());
        }
        for replaced in self.lines_with_codes() {
            self.ask_calls(&replaced.calls());
        }
        for file in self.wrong_orders() {
            self.ask_file(file.bytes());
            self.ask_calls(&file.calls());
        }
        for file in self.other_pairs() {
            self.ask_file(file.bytes());
            self.ask_calls(&file.calls());
        }
        for file in self.wrong_sums() {
            self.ask_file(file.bytes());
            self.ask_calls(&file.calls());
        }
        for file in self.letters_that_cost_nothing() {
            self.ask_file(file.bytes());
            self.ask_calls(&file.calls());
        }
    }

    pub fn ask_collections_in_parts(&mut self) {
        for file in self.files_with_collections() {
            self.ask_in_parts(&file.bytes());
        }
        for replaced in self.lines_with_codes() {
            self.ask_in_parts(&replaced.bytes());
        }
        for file in self.wrong_orders() {
            self.ask_in_parts(&file.bytes());
        }
        for file in self.other_pairs() {
            self.ask_in_parts(&file.bytes());
        }
        for file in self.letters_that_cost_nothing() {
            self.ask_in_parts(&file.bytes());
        }
        for direction in DIRECTIONS {
            self.cut_in_a_code(direction);
        }
    }

    /// Of O records alone, and beside batches of every other kind.
    fn files_with_collections(&mut self) -> Vec<MadeFile> {
        let mut files = Vec::new();
        for direction in DIRECTIONS {
            for payments in 1..=MOST_PAYMENTS {
                for _ in 0..FILES_OF_A_SHAPE {
                    files.push(self.file_of_kinds(direction, &[BatchKind::Collection], payments));
                }
            }
            for other in BATCH_KINDS {
                for kinds in [
                    [BatchKind::Collection, other],
                    [other, BatchKind::Collection],
                ] {
                    files.push(self.file_of_kinds(direction, &kinds, 1));
                    files.push(self.file_of_kinds(direction, &kinds, 2));
                }
            }
            files.push(self.file_of_kinds(direction, &BATCH_KINDS, 1));
        }
        files
    }

    fn file_of_kinds(
        &mut self,
        direction: Direction,
        kinds: &[BatchKind],
        payments: usize,
    ) -> MadeFile {
        let shapes = kinds.iter().map(|kind| BatchShape {
            kind: *kind,
            payments,
        });
        let shapes: Vec<BatchShape> = shapes.collect();
        file_of(self.random, direction, &shapes)
    }

    /// Good files but for one O: with a code of every sort, with a wrong code
    /// beside a wrong field, and with all combinations of what a code has wrong.
    fn lines_with_codes(&mut self) -> Vec<Replaced> {
        let mut lines = Vec::new();
        for direction in DIRECTIONS {
            let subject = Subject { kind: O, direction };
            for code in codes_of_note(self.random) {
                let replaced = self.changed_o(subject, |_, line| CODE.put(line, &code));
                lines.push(replaced);
            }
            for flaws in 0..1 << CODE_FLAWS.len() {
                for _ in 0..REPEATS_PER_FLAWS {
                    lines.push(self.with_code_flaws(subject, flaws));
                }
            }
            for field in fields_to_spoil(subject) {
                for code in one_of_each_number(self.random) {
                    let replaced = self.changed_o(subject, |cases, line| {
                        CODE.put(line, &code);
                        record_flaws::spoil(cases.random, field, line);
                    });
                    lines.push(replaced);
                }
            }
        }
        lines
    }

    fn changed_o(
        &mut self,
        subject: Subject,
        change: impl Fn(&mut FileCases, &mut [u8]),
    ) -> Replaced {
        loop {
            if let Some((file, mut line, at)) = self.flawed_beside_good(subject, &[]) {
                change(self, &mut line);
                return Replaced { file, at, line };
            }
        }
    }

    /// One bit of `flaws` for each of those that a code can have.
    fn with_code_flaws(&mut self, subject: Subject, flaws: usize) -> Replaced {
        let has = |flaw: usize| flaws >> flaw & 1 == 1;
        let chosen = (0..CODE_FLAWS.len()).filter(|flaw| has(*flaw));
        let chosen: Vec<_> = chosen.map(|flaw| CODE_FLAWS[flaw]).collect();
        let mut replaced = self.changed_o(subject, |_, _| {});
        let mut file = replaced.file.clone();
        spoil_line(self.random, &mut file, replaced.at, &chosen);
        replaced.line = file.lines.swap_remove(replaced.at).bytes;
        replaced
    }

    /// A detail of every kind put between any two lines of a batch of every kind,
    /// and in the place of any; all numbers, counts and sums follow from it.
    fn wrong_orders(&mut self) -> Vec<MadeFile> {
        let mut files = Vec::new();
        for direction in DIRECTIONS {
            for batch in BATCH_KINDS {
                for kind in RECORD_KINDS {
                    let about_o = batch == BatchKind::Collection || kind == O;
                    if kind.segment().is_some() && about_o {
                        files.extend(self.with_a_detail(direction, batch, kind));
                    }
                }
            }
        }
        files
    }

    fn with_a_detail(
        &mut self,
        direction: Direction,
        batch: BatchKind,
        kind: RecordKind,
    ) -> Vec<MadeFile> {
        let good = self.file_of_kinds(direction, &[batch], 2);
        let trailer = good.lines.len() - 2;
        let mut files = Vec::new();
        for at in 2..=trailer {
            let mut bytes = record_for_a_file(self.random, kind, direction);
            bytes.extend_from_slice(LINE_END);
            let line = MadeLine { kind, bytes };
            let mut longer = good.clone();
            longer.lines.insert(at, line.clone());
            longer.renumber();
            files.push(longer);
            if at < trailer {
                let mut other = good.clone();
                other.lines[at] = line;
                other.renumber();
                files.push(other);
            }
        }
        files
    }

    /// Service and form of an O batch crossed with those of others, in front of
    /// payments of every kind.
    fn other_pairs(&mut self) -> Vec<MadeFile> {
        let mut files = Vec::new();
        for direction in DIRECTIONS {
            for kind in BATCH_KINDS {
                for pair in PAIRS {
                    let mut file = self.file_of_kinds(direction, &[kind], 1);
                    SERVICE_AND_FORM.put(&mut file.lines[1].bytes, pair);
                    files.push(file);
                }
            }
        }
        files
    }

    /// The trailer is right for another amount, or the sum leaves one out.
    fn wrong_sums(&mut self) -> Vec<MadeFile> {
        let mut files = Vec::new();
        for direction in DIRECTIONS {
            for cents in [0, 1, 4_711] {
                let mut file = self.file_of_kinds(direction, &[BatchKind::Collection], 2);
                let at = self.random.pick(&file.positions(O));
                put_amount(&mut file.lines[at], 9_900);
                file.renumber();
                AMOUNT_OF_O.put_number(&mut file.lines[at].bytes, cents);
                files.push(file);
            }
            let mut file = self.file_of_kinds(direction, &[BatchKind::Collection], 1);
            let at = file.positions(O)[0];
            put_amount(&mut file.lines[at], 9_900);
            file.renumber();
            let trailer = file.positions(RecordKind::BatchTrailer)[0];
            BATCH_SUM.put_number(&mut file.lines[trailer].bytes, 0);
            files.push(file);
        }
        files
    }

    /// Returns with two O records, the second of zero cents, and the same with its
    /// letter changed to Z; and the other way round a Z that might be an O.
    fn letters_that_cost_nothing(&mut self) -> Vec<MadeFile> {
        let mut files = Vec::new();
        for _ in 0..FILES_OF_A_SHAPE {
            let file = two_o_without_z(self);
            let second = file.positions(O)[1];
            let mut changed = file.clone();
            SEGMENT.put(&mut changed.lines[second].bytes, b"Z");
            let mut remittance = changed.clone();
            remittance.lines[0].bytes[142] = b'1';
            files.extend([file, changed, remittance]);
        }
        files
    }

    /// The two parts meet at each place of the code, wrong and right.
    fn cut_in_a_code(&mut self, direction: Direction) {
        let subject = Subject { kind: O, direction };
        for place in CODE.first - 1..=CODE.last {
            let wrong = self.with_code_flaws(subject, 1 << (CODE_FLAWS.len() - 1));
            let right = self.with_code_flaws(subject, 0);
            for replaced in [wrong, right] {
                let start = replaced.at * LINE_BYTES;
                let bytes = replaced.bytes();
                self.ask_cut_file(cut_at(&bytes, &[start + place]));
            }
        }
    }
}

fn two_o_without_z(cases: &mut FileCases) -> MadeFile {
    loop {
        let mut file = cases.file_of_kinds(Direction::Return, &[BatchKind::Collection], 2);
        if file.positions(RecordKind::Z).is_empty() {
            let second = file.positions(O)[1];
            put_amount(&mut file.lines[second], 0);
            file.renumber();
            return file;
        }
    }
}
