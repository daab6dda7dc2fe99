//! What the files in parts of a run have to show, so that a sort of cutting or
//! of call which no longer comes up is noticed.

use crate::asking::part_calls::PART_MISFITS;
use crate::checking::movement_tally::MIXES;
use crate::checking::part_sights::{Amount, Coming, Sight, Sort};
use crate::making::cuttings::FIVE_LINES_AND_A_HALF;
use crate::paper::lines::LINE_BYTES;
use crate::paper::numbers::WRONG_REGISTRATION;
use crate::paper::numbers::{NO_END, OUT_OF_TURN, TOTAL_TOO_LARGE, WRONG_BYTE, WRONG_LENGTH};
use crate::paper::record_kinds::DIRECTIONS;

const COMINGS: [Coming; 3] = [
    Coming::FirstOfItsPart,
    Coming::BehindLinesOfItsPart,
    Coming::InSeveralParts,
];
const AMOUNTS: [Amount; 4] = [
    Amount::OneByte,
    Amount::PartOfALine,
    Amount::Line,
    Amount::MoreThanALine,
];
const SORTS: [Sort; 3] = [Sort::EmptyPart, Sort::Part, Sort::End];
const LENGTHS: [usize; 6] = [
    0,
    1,
    LINE_BYTES - 1,
    LINE_BYTES,
    LINE_BYTES + 1,
    FIVE_LINES_AND_A_HALF,
];

/// All that has to be seen in a run.
pub fn demanded() -> Vec<Sight> {
    let mut sights = cuttings();
    sights.extend(accepted_files());
    sights.extend(refusals());
    sights.extend(PART_MISFITS.map(|misfit| Sight::NoCalls { misfit }));
    sights.extend([Sight::NoCall, Sight::EndAlone]);
    sights
}

/// Every place at which a line can be cut.
fn cuttings() -> Vec<Sight> {
    let mut sights = vec![Sight::LongPart];
    for behind in 1..LINE_BYTES {
        sights.extend([false, true].map(|refused| Sight::Cut { behind, refused }));
        sights.push(Sight::Unfinished { bytes: behind });
    }
    sights.extend(LENGTHS.map(|bytes| Sight::PartOf { bytes }));
    sights
}

fn accepted_files() -> Vec<Sight> {
    let mut sights = vec![Sight::EmptyPartBehindType9];
    for first in ['A', 'J'] {
        for direction in DIRECTIONS {
            let direction = char::from(direction.code());
            sights.extend(MIXES.map(|mix| Sight::Batch {
                direction,
                first,
                mix,
            }));
        }
        sights.push(Sight::Z { first });
    }
    sights
}

/// Every number that a file can give, and every call behind it.
fn refusals() -> Vec<Sight> {
    let mut sights = vec![Sight::UnfinishedWithWrongByte];
    for number in (WRONG_BYTE..=TOTAL_TOO_LARGE).chain([WRONG_REGISTRATION]) {
        sights.extend(COMINGS.map(|coming| Sight::RefusedLine { number, coming }));
    }
    for amount in AMOUNTS {
        sights.extend([false, true].map(|later| Sight::BytesBehind { later, amount }));
    }
    for number in (WRONG_LENGTH..=TOTAL_TOO_LARGE).chain([WRONG_REGISTRATION, OUT_OF_TURN]) {
        sights.extend(SORTS.map(|call| Sight::CallBehind { number, call }));
    }
    sights.extend([WRONG_LENGTH, NO_END].map(|number| Sight::RepairedInVain { number }));
    sights.extend([false, true].map(|refused| Sight::Open { refused }));
    sights
}
