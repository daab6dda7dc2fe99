//! How the requests that read a record are made: from good records of every
//! kind, spoiled in one way or several. The rules of document 01 alone make
//! them, so that a seeded fault changes what is expected and never what is asked.

use crate::asking::probe::{Op, Request, BYTES_LIMIT};
use crate::damage::record_flaws::{self, fields_to_spoil, known_contents_of, likely_byte};
use crate::damage::record_flaws::{BYTES_TO_TRY, UNPRINTABLE};
use crate::making::good_records::good_record;
use crate::making::random::Random;
use crate::paper::layout_table::{self as table, Entry, SEGMENT_PLACE, TYPE_PLACE};
use crate::paper::lines::RECORD_BYTES;
use crate::paper::record_kinds::{all_subjects, Direction, RecordKind, Subject, DIRECTIONS};

/// The header of a request to read has this room, which is not used.
const NO_ROOM: usize = 0;
const GOOD_RECORDS: usize = 20;
const SWAPPED_RECORDS: usize = 20;
const REPEATS_PER_FLAWS: usize = 2;
const LENGTHS: [usize; 9] = [0, 1, 7, 239, 240, 241, 242, 243, 480];
const LARGE_LENGTHS: [usize; 3] = [1_000, 65_536, BYTES_LIMIT];

const PAIR_PLACES: usize = 4;
const SERVICES_WITH_A_FORM: [usize; 4] = [1, 3, 20, 29];
const SAMPLE_FORMS: [usize; 11] = [0, 1, 3, 10, 11, 20, 30, 31, 41, 45, 99];
const LARGEST_CODE: usize = 99;
const PAIRS_WITH_NON_DIGITS: [&[u8; PAIR_PLACES]; 16] = [
    b"    ", b"20 1", b" 001", b"2 01", b"201 ", b"O330", b"03 0", b"03A0", b"03:0", b"/330",
    b"2O01", b"0 30", b"291 ", b"29 1", b" 911", b"2A11",
];

const CURRENCY_PLACE: usize = 21;
/// Places of the barcode before, at and behind the currency.
const BARCODE_PLACES: [usize; 5] = [18, 20, 21, 22, 61];

/// What can be wrong with a record, all independent of each other.
const WRONG_LENGTH: usize = 0;
const WRONG_BYTE: usize = 1;
const WRONG_TYPE: usize = 2;
const WRONG_SEGMENT: usize = 3;
const WRONG_FIELD: usize = 4;
const KINDS_OF_FLAWS: usize = 5;

/// All requests that read a record.
pub fn requests(random: &mut Random) -> Vec<Request> {
    let requests = Vec::new();
    let mut cases = RecordCases { random, requests };
    for subject in all_subjects() {
        cases.good_records(subject);
        cases.changed_places(subject);
        cases.changed_field_ends(subject);
        cases.two_spoiled_fields(subject);
        cases.several_flaws(subject);
        cases.swapped_neighbours(subject);
        cases.lengths(subject);
        cases.taken_for_others(subject);
        cases.known_contents(subject);
    }
    for direction in DIRECTIONS {
        cases.service_pairs(direction);
        cases.currencies(direction);
    }
    cases.requests
}

struct RecordCases<'a> {
    random: &'a mut Random,
    requests: Vec<Request>,
}

impl RecordCases<'_> {
    fn ask(&mut self, subject: Subject, record: Vec<u8>) {
        let request = Request::about_record(Op::ReadRecord, subject, NO_ROOM, record);
        self.requests.push(request);
    }

    fn good(&mut self, subject: Subject) -> Vec<u8> {
        good_record(self.random, subject)
    }

    fn good_records(&mut self, subject: Subject) {
        for _ in 0..GOOD_RECORDS {
            let record = self.good(subject);
            self.ask(subject, record);
        }
    }

    fn changed_places(&mut self, subject: Subject) {
        for at in 0..RECORD_BYTES {
            let mut record = self.good(subject);
            record[at] = likely_byte(self.random);
            self.ask(subject, record);
        }
    }

    fn changed_field_ends(&mut self, subject: Subject) {
        for field in table::fields(subject.kind) {
            let mut places = vec![field.first, field.last];
            places.dedup();
            for place in places {
                for byte in BYTES_TO_TRY {
                    let mut record = self.good(subject);
                    record[place - 1] = *byte;
                    self.ask(subject, record);
                }
            }
        }
    }

    /// Every two fields that can be spoiled, so that their order is tested.
    fn two_spoiled_fields(&mut self, subject: Subject) {
        let fields = fields_to_spoil(subject);
        for (index, left) in fields.iter().enumerate() {
            for right in &fields[index + 1..] {
                let mut record = self.good(subject);
                record_flaws::spoil(self.random, *left, &mut record);
                record_flaws::spoil(self.random, *right, &mut record);
                self.ask(subject, record);
            }
        }
    }

    /// Every combination of flaws, so that the order of refusals is tested.
    fn several_flaws(&mut self, subject: Subject) {
        for flaws in 0..1 << KINDS_OF_FLAWS {
            for _ in 0..REPEATS_PER_FLAWS {
                let record = self.record_with(subject, flaws);
                self.ask(subject, record);
            }
        }
    }

    /// One bit of `flaws` for each kind of flaw.
    fn record_with(&mut self, subject: Subject, flaws: usize) -> Vec<u8> {
        let has = |flaw: usize| flaws >> flaw & 1 == 1;
        let mut record = self.good(subject);
        if has(WRONG_FIELD) {
            let field = self.random.pick(&fields_to_spoil(subject));
            record_flaws::spoil(self.random, field, &mut record);
        }
        if has(WRONG_TYPE) {
            record[TYPE_PLACE - 1] = self.random.pick(b"0123459 x");
        }
        if has(WRONG_SEGMENT) {
            record[SEGMENT_PLACE - 1] = self.random.pick(b"ABJOZaoC 0");
        }
        if has(WRONG_BYTE) {
            let at = self.random.below(RECORD_BYTES);
            record[at] = self.random.pick(UNPRINTABLE);
        }
        if has(WRONG_LENGTH) {
            let length = self.random.pick(&LENGTHS);
            record.resize(length, b' ');
        }
        record
    }

    /// At every border of two fields, and at random places.
    fn swapped_neighbours(&mut self, subject: Subject) {
        let fields = table::fields(subject.kind).into_iter().skip(1);
        let mut places: Vec<usize> = fields.map(|field| field.first - 1).collect();
        for _ in 0..SWAPPED_RECORDS {
            places.push(self.random.between(1, RECORD_BYTES - 1));
        }
        for place in places {
            let mut record = self.good(subject);
            record.swap(place - 1, place);
            self.ask(subject, record);
        }
    }

    /// Filled up with blanks, and with line ends as a line of a file has them.
    fn lengths(&mut self, subject: Subject) {
        for length in LENGTHS {
            for filling in [b' ', b'\n'] {
                let mut record = self.good(subject);
                record.resize(length, filling);
                self.ask(subject, record);
            }
        }
        let mut line = self.good(subject);
        line.extend_from_slice(b"\r\n");
        self.ask(subject, line);
        let length = self.random.pick(&LARGE_LENGTHS);
        self.ask(subject, vec![b'0'; length]);
    }

    /// A good record under each kind and direction that it may not be meant for.
    fn taken_for_others(&mut self, subject: Subject) {
        for other in all_subjects() {
            let record = self.good(subject);
            self.ask(other, record);
        }
        for _ in 0..GOOD_RECORDS {
            let record = self.good(subject);
            self.ask(subject.in_the_other_direction(), record);
        }
    }

    /// The contents that each field tells apart.
    fn known_contents(&mut self, subject: Subject) {
        for field in table::fields(subject.kind) {
            for content in known_contents_of(field) {
                let mut record = self.good(subject);
                field.put(&mut record, &content);
                self.ask(subject, record);
            }
        }
    }

    fn service_pairs(&mut self, direction: Direction) {
        for service in 0..=LARGEST_CODE {
            for form in SAMPLE_FORMS {
                self.ask_pair(direction, format!("{service:02}{form:02}").as_bytes());
            }
        }
        for service in SERVICES_WITH_A_FORM {
            for form in 0..=LARGEST_CODE {
                self.ask_pair(direction, format!("{service:02}{form:02}").as_bytes());
            }
        }
        for pair in PAIRS_WITH_NON_DIGITS {
            self.ask_pair(direction, pair);
        }
    }

    fn ask_pair(&mut self, direction: Direction, pair: &[u8]) {
        let kind = RecordKind::BatchHeader;
        let subject = Subject { kind, direction };
        let mut record = self.good(subject);
        let fields = table::fields(kind).into_iter();
        for field in fields.filter(|field| field.entry == Entry::Service) {
            record[field.first - 1..][..PAIR_PLACES].copy_from_slice(pair);
        }
        self.ask(subject, record);
    }

    /// Each currency alone, and with a wrong byte elsewhere in the barcode.
    fn currencies(&mut self, direction: Direction) {
        let kind = RecordKind::J;
        let subject = Subject { kind, direction };
        for currency in b"012345678 /:A" {
            for place in BARCODE_PLACES {
                for other in b"0:" {
                    let mut record = self.good(subject);
                    record[place - 1] = *other;
                    record[CURRENCY_PLACE - 1] = *currency;
                    self.ask(subject, record);
                }
            }
        }
    }
}
