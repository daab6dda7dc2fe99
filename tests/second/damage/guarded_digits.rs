//! Changes of one digit of accepted 47-digit lines.

use crate::asking::probe::{Op, Request, UNUSED};
use crate::damage::changes::{Change, Demand, Trials};
use crate::paper::answers::Verdict;
use crate::paper::digit_strings::{Conversion, DigitRules, BARCODE_DIGITS, LINE_DIGITS};
use crate::paper::guarded_places::guarded_digits;
use crate::paper::Paper;

/// A digit string has no lines.
const NO_LINE: usize = 0;

/// Every other digit at every guarded place of the barcode's line; behind a
/// weak check also each change that keeps it, and is therefore accepted.
pub fn trials_of(barcode: &[u8]) -> Trials {
    let digit_line = Paper.line_of(barcode);
    let guarded = guarded_digits(&digit_line);
    let mut changes = Vec::new();
    for place in 1..=LINE_DIGITS {
        for byte in (b'0'..=b'9').filter(|digit| *digit != digit_line[place - 1]) {
            let demand = if guarded.contains(&place) {
                Demand::Refusal
            } else if keeps_check(&digit_line, place, byte) {
                Demand::Acceptance
            } else {
                continue;
            };
            changes.push(Change {
                line: NO_LINE,
                place,
                byte,
                demand,
            });
        }
    }
    let name = format!("digit line {}", digit_line.escape_ascii());
    let accepted = Request::new(Op::LineToBarcode, UNUSED, BARCODE_DIGITS, digit_line);
    Trials {
        name,
        accepted,
        changes,
    }
}

fn keeps_check(digit_line: &[u8], place: usize, digit: u8) -> bool {
    let mut changed = digit_line.to_vec();
    changed[place - 1] = digit;
    let verdict = Paper.digit_verdict(Conversion::LineToBarcode, &changed, BARCODE_DIGITS);
    verdict == Verdict::Accepted
}
