//! The letters of details that carry no claim: in a return an O without cents, read
//! as a Z, leaves every total right, and so does a Z that might be such an O.

use crate::damage::changes::{Change, Demand};
use crate::making::good_files::{MadeFile, MadeLine};
use crate::paper::collection_rules::{CollectionRules, COLLECTION_RULES};
use crate::paper::lines::RECORD_BYTES;
use crate::paper::places::{AMOUNT_OF_O, SEGMENT};
use crate::paper::record_kinds::{Direction, RecordKind, Subject};
use crate::paper::records::Records;
use crate::paper::Paper;

/// Each of them that stands straight behind an O: there is one payment less then,
/// or one more.
pub fn free_letters(file: &MadeFile) -> Vec<Change> {
    if file.direction != Direction::Return {
        return Vec::new();
    }
    let pairs = file.lines.windows(2).enumerate();
    let changes = pairs.filter_map(|(before, pair)| {
        let behind_o = pair[0].kind == RecordKind::O;
        let byte = other_letter(&pair[1]).filter(|_| behind_o)?;
        Some(Change {
            line: before + 2,
            place: SEGMENT.first,
            byte,
            demand: Demand::OtherTotals,
        })
    });
    changes.collect()
}

/// The letter that the record might have as well.
fn other_letter(line: &MadeLine) -> Option<u8> {
    let without_cents = AMOUNT_OF_O.of(&line.bytes).iter().all(|byte| *byte == b'0');
    match line.kind {
        RecordKind::O if without_cents => Some(b'Z'),
        RecordKind::Z if without_cents && might_be_o(line) => Some(b'O'),
        _ => None,
    }
}

fn might_be_o(line: &MadeLine) -> bool {
    let subject = Subject {
        kind: RecordKind::O,
        direction: Direction::Return,
    };
    let mut record = line.bytes[..RECORD_BYTES].to_vec();
    SEGMENT.put(&mut record, b"O");
    let mut rules = COLLECTION_RULES.into_iter();
    let keeps = |rule| Paper.collection_refusal(rule, subject, &record).is_none();
    Paper.read_record(subject, &record).accepts() && rules.all(keeps)
}
