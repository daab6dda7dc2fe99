//! The requests about one O record alone: its code has to be digits, and whether
//! it is a right code is not tested.

use crate::asking::probe::{Op, Request};
use crate::damage::collection_flaws::codes_of_note;
use crate::making::good_records::good_record;
use crate::making::random::Random;
use crate::paper::lines::RECORD_BYTES;
use crate::paper::places::CODE;
use crate::paper::record_kinds::{RecordKind, Subject, DIRECTIONS};
use crate::paper::records::Values;

/// The neighbours of the digits, a blank and a letter.
const NON_DIGITS: &[u8] = b"/: A";

pub fn requests(random: &mut Random) -> Vec<Request> {
    let mut requests = Vec::new();
    for direction in DIRECTIONS {
        let kind = RecordKind::O;
        let subject = Subject { kind, direction };
        let mut codes = codes_of_note(random);
        codes.extend(with_non_digits(random));
        for code in codes {
            requests.extend(read_and_written(random, subject, &code));
        }
    }
    requests
}

/// At every place.
fn with_non_digits(random: &mut Random) -> Vec<Vec<u8>> {
    let places = 0..CODE.width();
    let codes = places.map(|at| {
        let codes = codes_of_note(random);
        let mut code = codes[0].clone();
        code[at] = random.pick(NON_DIGITS);
        code
    });
    codes.collect()
}

fn read_and_written(random: &mut Random, subject: Subject, code: &[u8]) -> [Request; 2] {
    let mut record = good_record(random, subject);
    CODE.put(&mut record, code);
    let payload = Values::of_record(subject.kind, &record).to_payload();
    [
        Request::about_record(Op::ReadRecord, subject, 0, record),
        Request::about_record(Op::WriteRecord, subject, RECORD_BYTES, payload),
    ]
}
