//! What has to be seen in a run of O records and collection codes, so that a sort
//! of request which no longer comes up is noticed. What is to be said of each sort
//! stands here once more.

use crate::asking::probe::Op;
use crate::checking::collection_sights::{Sight, Sort};
use crate::damage::{call_flaws, record_flaws};
use crate::paper::layout_table::{Field, SEGMENT_PLACE};
use crate::paper::numbers::{NON_DIGIT, WRONG_CODE_CHECK, WRONG_IDENTIFIER, WRONG_PRODUCT};
use crate::paper::places::CODE;
use crate::paper::record_kinds::{Direction, RecordKind, Subject, DIRECTIONS};
use crate::paper::totals::MOVEMENTS;

const OF_ONE_RECORD: [Op; 2] = [Op::ReadRecord, Op::WriteRecord];
const OF_FILES: [Op; 4] = [Op::CheckFile, Op::CheckLines, Op::CheckParts, Op::WriteFile];
const IDENTIFIERS: [char; 4] = ['6', '7', '8', '9'];
/// Strings of both families in calls that are for others.
const WRONG_LENGTHS: [(Op, [usize; 2]); 4] = [
    (Op::BarcodeToLine, [47, 48]),
    (Op::LineToBarcode, [44, 48]),
    (Op::CodeToLine, [47, 48]),
    (Op::CodeLineToCode, [44, 47]),
];

/// All that has to be seen in a run.
pub fn demanded() -> Vec<Sight> {
    let mut sights = Vec::new();
    for direction in DIRECTIONS {
        for op in OF_ONE_RECORD {
            sights.extend(codes(op, direction, false));
            sights.extend(taken(op, direction));
        }
        for op in OF_FILES {
            sights.extend(codes(op, direction, true));
            sights.extend(taken(op, direction));
            sights.extend(behind_fields(op, direction));
        }
    }
    sights.extend(strings());
    sights
}

/// Codes of every sort; those of a record alone are not tested.
fn codes(op: Op, direction: Direction, tested: bool) -> Vec<Sight> {
    let mut sorts = vec![
        (Sort::WrongProduct, Some((WRONG_PRODUCT, 18))),
        (Sort::WrongIdentifier, Some((WRONG_IDENTIFIER, 20))),
    ];
    for identifier in IDENTIFIERS {
        sorts.push((Sort::Right(identifier), None));
        sorts.push((Sort::WrongCheck(identifier), Some((WRONG_CODE_CHECK, 21))));
    }
    let no_code = (Sort::NoCode, Some((NON_DIGIT, CODE.first)));
    let sorts = sorts.into_iter();
    let judged = sorts.map(|(sort, refused)| (sort, refused.filter(|_| tested)));
    let sights = judged.chain([no_code]).map(|(sort, refused)| Sight::Code {
        op: char::from(op.code()),
        direction: char::from(direction.code()),
        sort,
        refused,
    });
    sights.collect()
}

fn taken(op: Op, direction: Direction) -> Vec<Sight> {
    let mut sights = Vec::new();
    for movement in MOVEMENTS {
        sights.extend([false, true].map(|has_cents| Sight::Taken {
            op: char::from(op.code()),
            direction: char::from(direction.code()),
            movement,
            has_cents,
        }));
    }
    sights
}

/// A wrong code of each number behind every field that can be wrong.
fn behind_fields(op: Op, direction: Direction) -> Vec<Sight> {
    let subject = Subject {
        kind: RecordKind::O,
        direction,
    };
    let fields: Vec<Field> = match op {
        Op::WriteFile => {
            let given = call_flaws::fields_to_spoil(subject).into_iter();
            given.map(|(_, field)| field).collect()
        }
        _ => record_flaws::fields_to_spoil(subject),
    };
    let own = fields.into_iter().map(|field| field.first);
    let own = own.filter(|place| *place > SEGMENT_PLACE && *place != CODE.first);
    let sorts = [
        Sort::WrongProduct,
        Sort::WrongIdentifier,
        Sort::WrongCheck('6'),
        Sort::WrongCheck('8'),
    ];
    let sights = own.flat_map(|by| {
        sorts.map(|sort| Sight::Behind {
            op: char::from(op.code()),
            direction: char::from(direction.code()),
            sort,
            by,
        })
    });
    sights.collect()
}

/// Every identifier with every general check, both ways, and strings of other
/// lengths.
fn strings() -> Vec<Sight> {
    let mut sights = Vec::new();
    for op in [Op::CodeToLine, Op::CodeLineToCode] {
        for identifier in IDENTIFIERS {
            sights.extend(('0'..='9').map(|check| Sight::Converted {
                op: char::from(op.code()),
                identifier,
                check,
            }));
        }
    }
    for (op, lengths) in WRONG_LENGTHS {
        sights.extend(lengths.map(|digits| Sight::OfWrongLength {
            op: char::from(op.code()),
            digits,
        }));
    }
    sights
}
