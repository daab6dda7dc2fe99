//! The requests about files in which numbers are not given: as a whole, line by
//! line and in parts.

use crate::cases::file_cases::{FileCases, Replaced};
use crate::damage::absence_flaws::{always_given, leave_blank, mixes};
use crate::making::absences::{all_pairs, put_pair, Pair};
use crate::making::cuttings::cut_at;
use crate::making::good_files::{file_of, BatchShape, MadeFile};
use crate::paper::file_state::BatchKind;
use crate::paper::lines::LINE_BYTES;
use crate::paper::places::{Part, NOT_THERE_YET};
use crate::paper::record_kinds::{all_subjects, Direction, RecordKind, DIRECTIONS};

/// Of the few contents that are cut at every place.
const CUT_CONTENTS: [[&[u8]; 2]; 4] = [
    [b"        ", b"               "],
    [b"        ", b"000000000000000"],
    [b"       1", b"               "],
    [b"        ", b"12             "],
];

impl FileCases<'_> {
    pub fn ask_absences(&mut self) {
        for file in self.good_absences() {
            self.ask_file(file.bytes());
            self.ask_calls(&file.calls());
        }
        for replaced in self.refused_absences() {
            self.ask_file(replaced.bytes());
        }
        for replaced in self.refused_absences() {
            self.ask_calls(&replaced.calls());
        }
    }

    pub fn ask_absences_in_parts(&mut self) {
        for file in self.good_absences() {
            self.ask_in_parts(&file.bytes());
        }
        for replaced in self.refused_absences() {
            self.ask_in_parts(&replaced.bytes());
        }
        for direction in DIRECTIONS {
            for contents in CUT_CONTENTS {
                self.cut_in_numbers(direction, contents);
            }
        }
    }

    /// Every way in which the two numbers can be given, alone and all together,
    /// with boletos beside them and without.
    fn good_absences(&mut self) -> Vec<MadeFile> {
        let mut files = Vec::new();
        let pairs = all_pairs();
        for direction in DIRECTIONS {
            for pair in &pairs {
                files.push(self.credits_with(direction, &[*pair]));
                let other = self.random.pick(&pairs);
                files.push(self.credits_with(direction, &[*pair, other]));
            }
            files.push(self.credits_with(direction, &pairs));
        }
        files
    }

    /// A batch of credits whose numbers are so, and one of boletos.
    fn credits_with(&mut self, direction: Direction, pairs: &[Pair]) -> MadeFile {
        let credits = BatchShape {
            kind: BatchKind::Credit,
            payments: pairs.len(),
        };
        let boletos = BatchShape {
            kind: BatchKind::Boleto,
            payments: 1,
        };
        let shapes = match self.random.below(3) {
            0 => vec![boletos, credits],
            1 => vec![credits, boletos],
            _ => vec![credits],
        };
        let mut file = file_of(self.random, direction, &shapes);
        for (at, pair) in file.positions(RecordKind::A).into_iter().zip(pairs) {
            put_pair(self.random, &mut file.lines[at].bytes, *pair);
        }
        file
    }

    /// An A of a good file, in which something else stands at these places.
    fn with_contents(&mut self, direction: Direction, contents: &[(Part, Vec<u8>)]) -> Replaced {
        let pairs = all_pairs();
        let before = [self.random.pick(&pairs), self.random.pick(&pairs)];
        let file = self.credits_with(direction, &before);
        let at = self.random.pick(&file.positions(RecordKind::A));
        let mut line = file.lines[at].bytes.clone();
        for (part, content) in contents {
            part.put(&mut line, content);
        }
        Replaced { file, at, line }
    }

    /// Mixes in one of the two numbers of an A and in both, and every other field
    /// of digits left blank.
    fn refused_absences(&mut self) -> Vec<Replaced> {
        let mut replaced = Vec::new();
        let [first, second] = NOT_THERE_YET;
        for direction in DIRECTIONS {
            for part in NOT_THERE_YET {
                for content in mixes(self.random, part.width()) {
                    replaced.push(self.with_contents(direction, &[(part, content)]));
                }
            }
            let firsts = mixes(self.random, first.width());
            let seconds = mixes(self.random, second.width());
            for (left, right) in firsts.into_iter().zip(seconds) {
                replaced.push(self.with_contents(direction, &[(first, left), (second, right)]));
            }
        }
        for subject in all_subjects() {
            for field in always_given(subject.kind) {
                let good = self.flawed_beside_good(subject, &[]);
                replaced.extend(good.map(|(file, mut line, at)| {
                    leave_blank(field, &mut line);
                    Replaced { file, at, line }
                }));
            }
        }
        replaced
    }

    /// The two parts meet at each place of the two numbers.
    fn cut_in_numbers(&mut self, direction: Direction, contents: [&[u8]; 2]) {
        let [first, last] = NOT_THERE_YET;
        for place in first.first - 1..=last.last {
            let pairs = [self.random.pick(&all_pairs())];
            let mut file = self.credits_with(direction, &pairs);
            for at in file.positions(RecordKind::A) {
                let line = &mut file.lines[at].bytes;
                first.put(line, contents[0]);
                last.put(line, contents[1]);
                let bytes = file.bytes();
                self.ask_cut_file(cut_at(&bytes, &[at * LINE_BYTES + place]));
            }
        }
    }
}
