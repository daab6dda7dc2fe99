//! The requests about one record alone in which numbers are not given: every way
//! in which the two of an A can be, read and written, and every other number left
//! blank.

use crate::asking::probe::{Op, Request};
use crate::asking::values::{may_be_absent, DIGITS_OF_A_VALUE, NOT_GIVEN};
use crate::damage::absence_flaws::{always_given, leave_blank, mixes, LARGE_NUMBERS};
use crate::damage::absence_requests::{all_mixes, other_bytes, Sent};
use crate::damage::record_flaws::DATES;
use crate::making::absences::{self, all_pairs, give_pair, put_pair, Pair};
use crate::making::good_records::good_record;
use crate::making::random::Random;
use crate::paper::layout_table as table;
use crate::paper::lines::RECORD_BYTES;
use crate::paper::places::NOT_THERE_YET;
use crate::paper::record_kinds::{all_subjects, Direction, RecordKind, Subject, DIRECTIONS};
use crate::paper::records::Values;

const RECORDS_PER_PAIR: usize = 4;
const ROOMS: [usize; 5] = [0, 239, 240, 241, 300];

pub fn requests(random: &mut Random) -> Vec<Request> {
    let requests = Vec::new();
    let mut cases = AbsenceCases { random, requests };
    for direction in DIRECTIONS {
        for pair in all_pairs() {
            cases.read_and_written(direction, pair);
            cases.with_text_in_vain(direction, pair);
            cases.large_numbers(direction, pair);
        }
        cases.both_large(direction);
        cases.mixed_contents(direction);
        cases.dates_and_none(direction);
        cases.no_numbers_of_a(direction);
    }
    for subject in all_subjects() {
        cases.blank_fields(subject);
        cases.no_numbers(subject);
    }
    cases.requests
}

struct AbsenceCases<'a> {
    random: &'a mut Random,
    requests: Vec<Request>,
}

impl AbsenceCases<'_> {
    fn read(&mut self, subject: Subject, record: Vec<u8>) {
        let request = Request::about_record(Op::ReadRecord, subject, 0, record);
        self.requests.push(request);
    }

    fn write(&mut self, subject: Subject, room: usize, payload: Vec<u8>) {
        let request = Request::about_record(Op::WriteRecord, subject, room, payload);
        self.requests.push(request);
    }

    fn write_values(&mut self, subject: Subject, values: &Values) {
        self.write(subject, RECORD_BYTES, values.to_payload());
    }

    fn record_with(&mut self, direction: Direction, pair: Pair) -> Vec<u8> {
        let mut record = good_record(self.random, of_a(direction));
        put_pair(self.random, &mut record, pair);
        record
    }

    /// What is read is written again, with room for it and without.
    fn read_and_written(&mut self, direction: Direction, pair: Pair) {
        let subject = of_a(direction);
        for _ in 0..RECORDS_PER_PAIR {
            let record = self.record_with(direction, pair);
            let values = Values::of_record(subject.kind, &record);
            self.read(subject, record);
            for room in ROOMS {
                self.write(subject, room, values.to_payload());
            }
        }
    }

    /// Text at the places of a number does not count, given or not.
    fn with_text_in_vain(&mut self, direction: Direction, pair: Pair) {
        let subject = of_a(direction);
        for text in all_pairs() {
            let record = self.record_with(direction, text);
            let mut values = Values::of_record(subject.kind, &record);
            give_pair(self.random, &mut values, pair);
            self.write_values(subject, &values);
        }
        for byte in b"\x00\xFFx" {
            let record = self.record_with(direction, pair);
            let mut values = Values::of_record(subject.kind, &record);
            for part in NOT_THERE_YET {
                part.put(&mut values.text, &vec![*byte; part.width()]);
            }
            self.write_values(subject, &values);
        }
    }

    /// No number stands for 'not given', however large it is.
    fn large_numbers(&mut self, direction: Direction, pair: Pair) {
        let subject = of_a(direction);
        for (index, _) in absences::fields() {
            for number in LARGE_NUMBERS {
                let record = self.record_with(direction, pair);
                let mut values = Values::of_record(subject.kind, &record);
                values.numbers[index] = Some(number);
                self.write_values(subject, &values);
            }
        }
    }

    /// The first of two that are too wide is named.
    fn both_large(&mut self, direction: Direction) {
        let subject = of_a(direction);
        for number in LARGE_NUMBERS {
            let record = good_record(self.random, subject);
            let mut values = Values::of_record(subject.kind, &record);
            for (index, _) in absences::fields() {
                values.numbers[index] = Some(number);
            }
            self.write_values(subject, &values);
        }
    }

    /// In one of the two numbers, and in both.
    fn mixed_contents(&mut self, direction: Direction) {
        let subject = of_a(direction);
        let pairs = all_pairs();
        for part in NOT_THERE_YET {
            for content in mixes(self.random, part.width()) {
                let pair = self.random.pick(&pairs);
                let mut record = self.record_with(direction, pair);
                part.put(&mut record, &content);
                self.read(subject, record.clone());
                let [first, second] = NOT_THERE_YET;
                let both = if part == first { second } else { first };
                both.put(&mut record, &vec![b'x'; both.width()]);
                self.read(subject, record);
            }
        }
    }

    /// The first number has as many digits as a date, and is none.
    fn dates_and_none(&mut self, direction: Direction) {
        let subject = of_a(direction);
        let pairs = all_pairs();
        let [first, _] = NOT_THERE_YET;
        for content in DATES.split(' ') {
            let pair = self.random.pick(&pairs);
            let mut record = self.record_with(direction, pair);
            first.put(&mut record, content.as_bytes());
            let values = Values::of_record(subject.kind, &record);
            self.read(subject, record);
            self.write_values(subject, &values);
        }
    }

    /// Every other field of digits left blank, in an A beside the two that may be.
    fn blank_fields(&mut self, subject: Subject) {
        for field in always_given(subject.kind) {
            let mut records = vec![good_record(self.random, subject)];
            if subject.kind == RecordKind::A {
                let pairs = all_pairs().into_iter();
                records.extend(pairs.map(|pair| self.record_with(subject.direction, pair)));
            }
            for mut record in records {
                leave_blank(field, &mut record);
                self.read(subject, record);
            }
        }
    }

    /// Blanks for every number that is always given, and a mix for each.
    fn no_numbers(&mut self, subject: Subject) {
        let mixes = all_mixes(self.random);
        for index in 0..table::fields(subject.kind).len() {
            if !may_be_absent(subject.kind, index) {
                self.write_sent(subject, index, NOT_GIVEN);
            }
            let mix = self.random.pick(&mixes);
            self.write_sent(subject, index, mix);
        }
    }

    /// Every mix for a number that may be not given, and what is no blank.
    fn no_numbers_of_a(&mut self, direction: Direction) {
        for (index, _) in absences::fields() {
            let mut sent = all_mixes(self.random);
            sent.extend(other_bytes(self.random));
            for sent in sent {
                self.write_sent(of_a(direction), index, sent);
            }
        }
    }

    fn write_sent(&mut self, subject: Subject, index: usize, sent: Sent) {
        let record = good_record(self.random, subject);
        let mut payload = Values::of_record(subject.kind, &record).to_payload();
        payload[index * DIGITS_OF_A_VALUE..][..DIGITS_OF_A_VALUE].copy_from_slice(&sent);
        let room = self.random.pick(&ROOMS);
        self.write(subject, room, payload);
    }
}

fn of_a(direction: Direction) -> Subject {
    let kind = RecordKind::A;
    Subject { kind, direction }
}
