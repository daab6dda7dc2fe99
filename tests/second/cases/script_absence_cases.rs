//! Scripts in which numbers are not given.

use crate::asking::probe::{Op, Request, UNUSED};
use crate::asking::values::{may_be_absent, DIGITS_OF_A_VALUE, NOT_GIVEN};
use crate::asking::writer_script::{self, NUMBERS_OF_A_RECORD};
use crate::cases::script_cases::ScriptCases;
use crate::damage::absence_flaws::LARGE_NUMBERS;
use crate::damage::absence_requests::{all_mixes, other_bytes, Sent};
use crate::damage::malformed_scripts::{bytes_of, start_of_number};
use crate::making::absences::{self, all_pairs, give_pair, put_pair, Pair};
use crate::making::good_calls::{calls_of, steps, Frame};
use crate::making::good_files::{file_of, BatchShape, MadeFile};
use crate::paper::file_state::BatchKind;
use crate::paper::places::NOT_THERE_YET;
use crate::paper::record_kinds::{all_subjects, Direction, RecordKind, Subject, DIRECTIONS};

const FILES_PER_PAIR: usize = 3;
const ROOM: usize = 2_000;

impl ScriptCases<'_> {
    pub fn ask_absences(&mut self) {
        for direction in DIRECTIONS {
            for pair in all_pairs() {
                self.files_with(direction, pair);
                self.text_in_vain(direction, pair);
                self.large_beside(direction, pair);
                self.in_a_wrong_place(direction, pair);
            }
            let file = self.credits_with(direction, &all_pairs());
            let calls = calls_of(self.random, &file);
            self.ask_calls(&calls);
            self.both_large(direction);
            self.no_numbers_of_a(direction);
        }
        for subject in all_subjects() {
            self.no_numbers(subject);
        }
    }

    fn credits_with(&mut self, direction: Direction, pairs: &[Pair]) -> MadeFile {
        let shape = BatchShape {
            kind: BatchKind::Credit,
            payments: pairs.len(),
        };
        let mut file = file_of(self.random, direction, &[shape]);
        for (at, pair) in file.positions(RecordKind::A).into_iter().zip(pairs) {
            put_pair(self.random, &mut file.lines[at].bytes, *pair);
        }
        file
    }

    /// Alone, and beside payments with others.
    fn files_with(&mut self, direction: Direction, pair: Pair) {
        for _ in 0..FILES_PER_PAIR {
            let other = self.random.pick(&all_pairs());
            for pairs in [vec![pair], vec![pair, other], vec![other, pair]] {
                let file = self.credits_with(direction, &pairs);
                let calls = calls_of(self.random, &file);
                self.ask_calls(&calls);
            }
        }
    }

    fn frame_with(&mut self, direction: Direction, pair: Pair) -> Frame {
        let file = self.credits_with(direction, &[pair]);
        let at = file.positions(RecordKind::A)[0];
        Frame::of(self.random, file, at)
    }

    /// What the text has at the places of the two numbers does not count.
    fn text_in_vain(&mut self, direction: Direction, pair: Pair) {
        for text in all_pairs() {
            let mut frame = self.frame_with(direction, text);
            let mut line = frame.file.lines[frame.spot.line].bytes.clone();
            put_pair(self.random, &mut line, text);
            let values = &mut frame.record_mut().values;
            for part in NOT_THERE_YET {
                part.put(&mut values.text, part.of(&line));
            }
            give_pair(self.random, values, pair);
            self.ask_calls(&frame.calls);
        }
    }

    /// No number stands for 'not given', however large it is.
    fn large_beside(&mut self, direction: Direction, pair: Pair) {
        for (index, _) in absences::fields() {
            for number in LARGE_NUMBERS {
                let good = self.frame_with(direction, pair);
                let mut spoiled = good.clone();
                spoiled.record_mut().values.numbers[index] = Some(number);
                self.ask_spoiled(&good, &spoiled);
            }
        }
    }

    /// The first of two that are too wide is named.
    fn both_large(&mut self, direction: Direction) {
        for number in LARGE_NUMBERS {
            let pair = self.random.pick(&all_pairs());
            let good = self.frame_with(direction, pair);
            let mut spoiled = good.clone();
            for (index, _) in absences::fields() {
                spoiled.record_mut().values.numbers[index] = Some(number);
            }
            self.ask_spoiled(&good, &spoiled);
        }
    }

    /// A good A where a J, a B or a Z is due is of the wrong kind all the same.
    fn in_a_wrong_place(&mut self, direction: Direction, pair: Pair) {
        let a = self.frame_with(direction, pair).record_mut().clone();
        let boletos = self.payment_frame(direction, BatchKind::Boleto);
        let credits = self.frame_with(direction, pair);
        for (good, position) in [(&boletos, 0), (&boletos, 1), (&credits, 1), (&credits, 2)] {
            let mut spoiled = good.clone();
            let records = &mut spoiled.call_mut().records;
            records.truncate(position.max(2));
            if position < records.len() {
                records[position] = a.clone();
            } else {
                records.push(a.clone());
            }
            self.ask_spoiled(good, &spoiled);
        }
    }

    /// Blanks for every number that is always given, and a mix for each, those
    /// too for which the record has no field.
    fn no_numbers(&mut self, subject: Subject) {
        let mixes = all_mixes(self.random);
        for index in 0..NUMBERS_OF_A_RECORD {
            if !may_be_absent(subject.kind, index) {
                self.ask_sent(subject, index, NOT_GIVEN);
            }
            let mix = self.random.pick(&mixes);
            self.ask_sent(subject, index, mix);
        }
    }

    /// Every mix for a number that may be not given, and what is no blank.
    fn no_numbers_of_a(&mut self, direction: Direction) {
        let kind = RecordKind::A;
        for (index, _) in absences::fields() {
            let mut sent = all_mixes(self.random);
            sent.extend(other_bytes(self.random));
            for sent in sent {
                self.ask_sent(Subject { kind, direction }, index, sent);
            }
        }
    }

    /// Nothing of such a script is done, however good its other calls are.
    fn ask_sent(&mut self, subject: Subject, index: usize, sent: Sent) {
        let mut frame = match Frame::around(self.random, subject) {
            Some(frame) => frame,
            None => return,
        };
        frame.record_mut().kind = subject.kind;
        let mut payload = writer_script::to_payload(&steps(&frame.calls));
        let call: usize = frame.calls[..frame.spot.call].iter().map(bytes_of).sum();
        let at = call + start_of_number(frame.spot.record, index);
        payload[at..][..DIGITS_OF_A_VALUE].copy_from_slice(&sent);
        self.requests
            .push(Request::new(Op::WriteFile, UNUSED, ROOM, payload));
    }
}
