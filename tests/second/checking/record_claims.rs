//! Claims of document 01 about one record alone, checked over the second
//! program's own table and rules: where one fails, the second program is wrong.

use crate::asking::probe::untouched;
use crate::making::good_records::good_record;
use crate::making::random::Random;
use crate::paper::layout_table::{self as table, Entry, Field};
use crate::paper::lines::RECORD_BYTES;
use crate::paper::record_kinds::{all_subjects, Direction, RecordKind, Subject};
use crate::paper::records::{Records, Values};
use crate::paper::Paper;

const SEED: u64 = 5;
const RECORDS_OF_A_SUBJECT: usize = 20;
/// How many fields the table has for each kind of record.
const FIELD_COUNTS: [(RecordKind, usize); 10] = [
    (RecordKind::FileHeader, 22),
    (RecordKind::BatchHeader, 24),
    (RecordKind::A, 25),
    (RecordKind::B, 9),
    (RecordKind::J, 21),
    (RecordKind::J52, 18),
    (RecordKind::O, 16),
    (RecordKind::Z, 6),
    (RecordKind::BatchTrailer, 10),
    (RecordKind::FileTrailer, 8),
];

/// How many changed bytes at places of fixed content were refused.
pub fn check() -> Result<usize, String> {
    for (kind, count) in FIELD_COUNTS {
        let fields = table::fields(kind);
        demand(fields.len() == count, "number of fields", kind)?;
        demand(tiles(&fields), "tiling of the fields", kind)?;
    }
    let mut random = Random::with_seed(SEED);
    let mut refused = 0;
    for subject in all_subjects() {
        for _ in 0..RECORDS_OF_A_SUBJECT {
            let record = good_record(&mut random, subject);
            round_trip(subject, &record)?;
            refused += changes_at_fixed_places(subject, &record, &mut random)?;
        }
    }
    Ok(refused)
}

/// The fields cover 1 to 240 with no gap and no overlap, and fixed content has
/// the width of its field.
fn tiles(fields: &[Field]) -> bool {
    let mut next = 1;
    for field in fields {
        let fits = match field.entry {
            Entry::Exact(content) => content.len() == field.width(),
            _ => true,
        };
        if field.first != next || field.last < field.first || !fits {
            return false;
        }
        next = field.last + 1;
    }
    next == RECORD_BYTES + 1
}

/// A good record is read, and writing what was read gives its bytes again.
fn round_trip(subject: Subject, record: &[u8]) -> Result<(), String> {
    let read = Paper.read_record(subject, record);
    demand(read.accepts(), "acceptance of a good record", subject.kind)?;
    let values = Values::of_record(subject.kind, record);
    let written = Paper.write_record(subject, &values, untouched(RECORD_BYTES));
    let same = written.memory.as_deref() == Some(record);
    demand(same, "round trip of a good record", subject.kind)
}

fn changes_at_fixed_places(
    subject: Subject,
    record: &[u8],
    random: &mut Random,
) -> Result<usize, String> {
    let mut refused = 0;
    for field in table::fields(subject.kind) {
        let reserved =
            field.entry == Entry::BlankInRemittance && subject.direction == Direction::Remittance;
        if !reserved && field.fixed_content().is_none() {
            continue;
        }
        for place in field.first..=field.last {
            let mut changed = record.to_vec();
            let others = (b' '..=b'~').filter(|byte| *byte != record[place - 1]);
            changed[place - 1] = random.pick(&others.collect::<Vec<u8>>());
            let right = !Paper.read_record(subject, &changed).accepts();
            demand(right, "refusal of a change of fixed content", subject.kind)?;
            refused += 1;
        }
    }
    Ok(refused)
}

fn demand(holds: bool, claim: &str, kind: RecordKind) -> Result<(), String> {
    if holds {
        return Ok(());
    }
    let code = char::from(kind.code());
    Err(format!("{claim} of kind {code} is not as document 01 says"))
}
