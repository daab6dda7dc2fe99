//! How the requests that write a record are made: from the values of good
//! records, spoiled in one way or several, with rooms of all sizes.

use crate::asking::probe::{Op, Request, BYTES_LIMIT};
use crate::asking::values::DIGITS_OF_A_VALUE;
use crate::damage::record_flaws::{self, fields_to_spoil, DATES, TIMES, UNPRINTABLE};
use crate::damage::value_flaws::{number_fields, numbers_in, spoil_value, NUMBERS_OVER_64_BITS};
use crate::making::good_records::good_record;
use crate::making::random::Random;
use crate::paper::layout_table::{self as table, Entry};
use crate::paper::lines::RECORD_BYTES;
use crate::paper::record_kinds::{all_subjects, Direction, RecordKind, Subject, DIRECTIONS};
use crate::paper::records::{first_too_wide, Values};

const ROOMS: [usize; 8] = [0, 1, 239, 240, 241, 242, 300, 1_000];
const SMALL_ROOMS: [usize; 4] = [0, 1, 120, 239];
/// Bytes behind the record, which the call must leave as they are.
const SPARE_ROOMS: [usize; 4] = [0, 1, 2, 60];
const GOOD_VALUES: usize = 3;
const ROUND_TRIPS: usize = 25;
const UNUSED_PARTS: usize = 15;
const REPEATS_PER_FLAWS: usize = 2;
const DIGITS_TO_TRY: u64 = 12;
/// The last two have more digits than a service or a form.
const LARGEST_CODE: u64 = 101;
const SAMPLE_FORMS: [u64; 8] = [1, 10, 11, 30, 31, 99, 111, 130];
const TEXT_BYTES_TO_TRY: &[u8] = b" x/\x1F\x7F";
const NO_NUMBERS: [&[u8; DIGITS_OF_A_VALUE]; 4] = [
    b"                   1",
    b"+0000000000000000001",
    b"-0000000000000000001",
    b"0000000000000000001A",
];

/// What can be wrong with a request to write, all independent of each other.
const WRONG_BYTE: usize = 0;
const WRONG_VALUE: usize = 1;
const WIDE_NUMBER: usize = 2;
const SMALL_ROOM: usize = 3;
const KINDS_OF_FLAWS: usize = 4;

/// All requests that write a record.
pub fn requests(random: &mut Random) -> Vec<Request> {
    let requests = Vec::new();
    let mut cases = WriteCases { random, requests };
    for subject in all_subjects() {
        cases.good_values(subject);
        cases.round_trips(subject);
        cases.unused_parts(subject);
        cases.wide_numbers(subject);
        cases.known_numbers(subject);
        cases.changed_text(subject);
        cases.texts_with_blanks(subject);
        cases.two_spoiled_values(subject);
        cases.several_flaws(subject);
        cases.malformed_payloads(subject);
    }
    for direction in DIRECTIONS {
        cases.service_pairs(direction);
    }
    cases.requests
}

struct WriteCases<'a> {
    random: &'a mut Random,
    requests: Vec<Request>,
}

impl WriteCases<'_> {
    fn ask(&mut self, subject: Subject, room: usize, payload: Vec<u8>) {
        let request = Request::about_record(Op::WriteRecord, subject, room, payload);
        self.requests.push(request);
    }

    /// With room for the record, so that the values alone decide.
    fn ask_with_room(&mut self, subject: Subject, values: &Values) {
        let room = self.ample_room();
        self.ask(subject, room, values.to_payload());
    }

    fn ample_room(&mut self) -> usize {
        RECORD_BYTES + self.random.pick(&SPARE_ROOMS)
    }

    fn values(&mut self, subject: Subject) -> Values {
        let record = good_record(self.random, subject);
        Values::of_record(subject.kind, &record)
    }

    fn good_values(&mut self, subject: Subject) {
        for room in ROOMS {
            for _ in 0..GOOD_VALUES {
                let values = self.values(subject);
                self.ask(subject, room, values.to_payload());
            }
        }
        let values = self.values(subject);
        self.ask(subject, BYTES_LIMIT, values.to_payload());
    }

    /// A record is read and what was read is written again. That this gives the
    /// same bytes is a claim the second program has made good for itself.
    fn round_trips(&mut self, subject: Subject) {
        for _ in 0..ROUND_TRIPS {
            let record = good_record(self.random, subject);
            let values = Values::of_record(subject.kind, &record);
            let read = Request::about_record(Op::ReadRecord, subject, 0, record);
            self.requests.push(read);
            self.ask_with_room(subject, &values);
        }
    }

    /// Anything in the numbers and in the text where they do not count.
    fn unused_parts(&mut self, subject: Subject) {
        for _ in 0..UNUSED_PARTS {
            let mut values = self.values(subject);
            for (index, field) in table::fields(subject.kind).into_iter().enumerate() {
                if !field.is_number() {
                    values.numbers[index] = Some(self.random.pick(&[1, u64::MAX, 1 << 63]));
                }
                if field.is_number() || field.fixed_content().is_some() {
                    let bytes = (0..field.width()).map(|_| self.random.byte());
                    field.put(&mut values.text, &bytes.collect::<Vec<u8>>());
                }
            }
            self.ask_with_room(subject, &values);
        }
    }

    /// Around the first number that is too wide for its field, with the digits
    /// of a good number behind it too, and at the end of 64 bits.
    fn wide_numbers(&mut self, subject: Subject) {
        for (index, field) in number_fields(subject.kind) {
            let too_wide = first_too_wide(field);
            for _ in 0..2 {
                let values = self.values(subject);
                let good = values.numbers[index].unwrap_or(0);
                for number in [too_wide - 1, too_wide, too_wide + good, u64::MAX] {
                    self.ask_number(subject, &values, index, number);
                }
            }
        }
    }

    fn ask_number(&mut self, subject: Subject, good: &Values, index: usize, number: u64) {
        let mut values = good.clone();
        values.numbers[index] = Some(number);
        self.ask_with_room(subject, &values);
    }

    /// The numbers that dates, times and domains tell apart.
    fn known_numbers(&mut self, subject: Subject) {
        for (index, field) in number_fields(subject.kind) {
            let numbers: Vec<u64> = match field.entry {
                Entry::Date => numbers_in(DATES),
                Entry::Time => numbers_in(TIMES),
                Entry::OneOf(_) => (0..DIGITS_TO_TRY).collect(),
                _ => continue,
            };
            for number in numbers {
                let values = self.values(subject);
                self.ask_number(subject, &values, index, number);
            }
        }
    }

    fn texts_with_blanks(&mut self, subject: Subject) {
        let fields = table::fields(subject.kind).into_iter();
        for field in fields.filter(|field| field.entry == Entry::Text) {
            for text in record_flaws::texts_with_blanks(field.width()) {
                let mut values = self.values(subject);
                field.put(&mut values.text, &text);
                self.ask_with_room(subject, &values);
            }
        }
    }

    /// At both ends of every field, of those too where text does not count.
    fn changed_text(&mut self, subject: Subject) {
        for field in table::fields(subject.kind) {
            let mut places = vec![field.first, field.last];
            places.dedup();
            for place in places {
                for byte in TEXT_BYTES_TO_TRY {
                    let mut values = self.values(subject);
                    values.text[place - 1] = *byte;
                    self.ask_with_room(subject, &values);
                }
            }
        }
    }

    /// Every two fields that can be spoiled, so that their order is tested.
    fn two_spoiled_values(&mut self, subject: Subject) {
        let fields = fields_to_spoil(subject);
        for (index, left) in fields.iter().enumerate() {
            for right in &fields[index + 1..] {
                let mut values = self.values(subject);
                spoil_value(self.random, subject, *left, &mut values);
                spoil_value(self.random, subject, *right, &mut values);
                self.ask_with_room(subject, &values);
            }
        }
    }

    /// Every combination of flaws, so that the order of refusals is tested.
    fn several_flaws(&mut self, subject: Subject) {
        for flaws in 0..1 << KINDS_OF_FLAWS {
            for _ in 0..REPEATS_PER_FLAWS {
                self.ask_with_flaws(subject, flaws);
            }
        }
    }

    /// One bit of `flaws` for each kind of flaw.
    fn ask_with_flaws(&mut self, subject: Subject, flaws: usize) {
        let has = |flaw: usize| flaws >> flaw & 1 == 1;
        let mut values = self.values(subject);
        if has(WRONG_VALUE) {
            let field = self.random.pick(&fields_to_spoil(subject));
            spoil_value(self.random, subject, field, &mut values);
        }
        if has(WIDE_NUMBER) {
            let (index, field) = self.random.pick(&number_fields(subject.kind));
            values.numbers[index] = Some(first_too_wide(field));
        }
        if has(WRONG_BYTE) {
            let at = self.random.below(RECORD_BYTES);
            values.text[at] = self.random.pick(UNPRINTABLE);
        }
        let room = if has(SMALL_ROOM) {
            self.random.pick(&SMALL_ROOMS)
        } else {
            self.ample_room()
        };
        self.ask(subject, room, values.to_payload());
    }

    fn service_pairs(&mut self, direction: Direction) {
        let kind = RecordKind::BatchHeader;
        let subject = Subject { kind, direction };
        for service in 0..=LARGEST_CODE {
            for form in SAMPLE_FORMS {
                let mut values = self.values(subject);
                for (index, field) in number_fields(kind) {
                    match field.entry {
                        Entry::Service => values.numbers[index] = Some(service),
                        Entry::Form => values.numbers[index] = Some(form),
                        _ => {}
                    }
                }
                self.ask_with_room(subject, &values);
            }
        }
    }

    /// Of a wrong length, and with bytes that are no number of 64 bits.
    fn malformed_payloads(&mut self, subject: Subject) {
        let payload = self.values(subject).to_payload();
        let whole = payload.len();
        let shorter = [0, RECORD_BYTES, whole - DIGITS_OF_A_VALUE, whole - 1];
        for length in shorter.into_iter().chain([whole + 1, whole + 20]) {
            let mut other = payload.clone();
            other.resize(length, b'0');
            let room = self.random.pick(&ROOMS);
            self.ask(subject, room, other);
        }
        for wrong in NUMBERS_OVER_64_BITS.into_iter().chain(NO_NUMBERS) {
            let mut other = payload.clone();
            let index = self.random.below(table::fields(subject.kind).len());
            other[index * DIGITS_OF_A_VALUE..][..DIGITS_OF_A_VALUE].copy_from_slice(wrong);
            let room = self.random.pick(&ROOMS);
            self.ask(subject, room, other);
        }
    }
}
