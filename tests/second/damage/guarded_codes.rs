//! Changes of one digit of accepted collection codes and of their lines: those that
//! request 5 claims are refused, and those without a claim that leave a right
//! string are accepted.

use crate::asking::probe::{Request, UNUSED};
use crate::checking::collection_claims::is_claimed;
use crate::damage::changes::{Change, Demand, Trials};
use crate::paper::answers::Verdict;
use crate::paper::collection_codes::{CodeConversion, CodeRules};
use crate::paper::Paper;

/// A digit string has no lines.
const NO_LINE: usize = 0;

/// Of the code, and of its line.
pub fn trials_of(code: &[u8]) -> [Trials; 2] {
    let line = Paper.code_line_of(code);
    [
        trials_with(CodeConversion::CodeToLine, code),
        trials_with(CodeConversion::LineToCode, &line),
    ]
}

fn trials_with(conversion: CodeConversion, string: &[u8]) -> Trials {
    let mut changes = Vec::new();
    for place in 1..=string.len() {
        for byte in (b'0'..=b'9').filter(|digit| *digit != string[place - 1]) {
            let demand = if is_claimed(conversion, string, place, byte) {
                Demand::Refusal
            } else if stays_right(conversion, string, place, byte) {
                Demand::Acceptance
            } else {
                continue;
            };
            changes.push(Change {
                line: NO_LINE,
                place,
                byte,
                demand,
            });
        }
    }
    let digits = conversion.result_digits();
    Trials {
        name: format!("collection string {}", string.escape_ascii()),
        accepted: Request::new(conversion.op(), UNUSED, digits, string.to_vec()),
        changes,
    }
}

fn stays_right(conversion: CodeConversion, string: &[u8], place: usize, digit: u8) -> bool {
    let mut changed = string.to_vec();
    changed[place - 1] = digit;
    let verdict = Paper.code_verdict(conversion, &changed, conversion.result_digits());
    verdict == Verdict::Accepted
}
