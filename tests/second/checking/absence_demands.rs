//! What has to be seen in a run of numbers that are not given, so that a sort of
//! case which no longer comes up is noticed.

use crate::asking::probe::Op;
use crate::asking::values::{may_be_absent, NoNumber};
use crate::asking::writer_script::NUMBERS_OF_A_RECORD;
use crate::checking::absence_sights::{Mix, Sight, ONE_BYTE, TWO_HALVES};
use crate::checking::script_sights::code;
use crate::damage::absence_flaws::{always_given, LARGE_NUMBERS};
use crate::making::absences;
use crate::paper::layout_table as table;
use crate::paper::places::{Part, NOT_THERE_YET};
use crate::paper::record_kinds::{RecordKind, DIRECTIONS, RECORD_KINDS};
use crate::paper::records::first_too_wide;

/// The ops that read records, and those that write them.
pub const READING: [Op; 4] = [
    Op::ReadRecord,
    Op::CheckFile,
    Op::CheckLines,
    Op::CheckParts,
];
pub const WRITING: [Op; 2] = [Op::WriteRecord, Op::WriteFile];

pub fn letter(op: Op) -> char {
    char::from(op.code())
}

/// All that has to be seen in a run.
pub fn demanded() -> Vec<Sight> {
    let mut sights = Vec::new();
    for op in READING {
        for direction in DIRECTIONS.map(|direction| char::from(direction.code())) {
            for part in NOT_THERE_YET {
                sights.extend(mixes(op, direction, part));
            }
        }
        for kind in RECORD_KINDS {
            let fields = always_given(kind).into_iter();
            sights.extend(fields.map(|field| Sight::Blank {
                op: letter(op),
                kind: code(kind),
                place: field.first,
            }));
        }
    }
    for op in WRITING {
        sights.extend(wide_numbers(op));
        for kind in RECORD_KINDS {
            sights.extend(no_numbers(op, kind));
        }
    }
    sights
}

/// Every sort at every place of the field.
fn mixes(op: Op, direction: char, part: Part) -> Vec<Sight> {
    let op = letter(op);
    let at = |mix: Mix, place: usize| Sight::Mixed {
        op,
        direction,
        mix,
        place,
    };
    let mut sights = Vec::new();
    for place in part.places() {
        sights.extend(ONE_BYTE.map(|mix| at(mix, place)));
        if place > part.first {
            sights.extend(TWO_HALVES.map(|mix| at(mix, place)));
        }
    }
    sights
}

fn wide_numbers(op: Op) -> Vec<Sight> {
    let mut sights = Vec::new();
    for direction in DIRECTIONS {
        for (_, field) in absences::fields() {
            let wide = LARGE_NUMBERS.into_iter();
            let wide = wide.filter(|number| *number >= first_too_wide(field));
            sights.extend(wide.map(|number| Sight::TooWide {
                op: letter(op),
                direction: char::from(direction.code()),
                place: field.first,
                number,
            }));
        }
    }
    sights
}

/// A record that is written alone comes without numbers behind its last field.
fn no_numbers(op: Op, kind: RecordKind) -> Vec<Sight> {
    let numbers = match op {
        Op::WriteFile => NUMBERS_OF_A_RECORD,
        _ => table::fields(kind).len(),
    };
    let mut sights = Vec::new();
    for index in 0..numbers {
        let of = |reason| Sight::NoNumber {
            op: letter(op),
            kind: code(kind),
            index,
            reason,
        };
        sights.push(of(NoNumber::BlanksAndDigits));
        if !may_be_absent(kind, index) {
            sights.push(of(NoNumber::Blanks));
        }
    }
    sights
}
