//! Claims of request 5 about collection codes, checked over the second program's
//! own rules: where one fails, the second program is wrong. Every change of one
//! digit is tried, in both ways: what is claimed is refused, and some of what is
//! not claimed is accepted.

use std::ops::RangeInclusive;

use crate::checking::collection_arithmetic::check_by;
use crate::checking::collection_vectors;
use crate::paper::answers::Verdict;
use crate::paper::collection_codes::{
    CodeConversion, CodeRules, Modulus, BLOCK_CHECK_PLACES, CODE_CHECK_PLACE, DIGITS_OF_A_BLOCK,
    IDENTIFIER_PLACE, PRODUCT_PLACE,
};
use crate::paper::Paper;

/// In modulus 11 it stands for two remainders, so it guards fewer places.
const WEAK_CHECK: u8 = b'0';
const IDENTIFIERS: [u8; 4] = *b"6789";
/// Places of a line at which modulus 11 weighs a digit in its block and in the
/// code so that one of the two sums shows every change, whatever the checks are.
const PLACES_WEIGHED_APART: [RangeInclusive<usize>; 6] =
    [5..=7, 9..=11, 13..=23, 26..=28, 30..=32, 34..=35];

/// What changes of one digit have shown.
#[derive(Default)]
pub struct Changes {
    pub vectors: usize,
    pub claimed_refused: usize,
    pub accepted_in_codes: usize,
    pub accepted_in_lines: usize,
    /// The identifier goes to the other modulus, and the code stays right.
    pub accepted_at_the_identifier: usize,
}

pub fn check(codes: &[Vec<u8>]) -> Result<Changes, String> {
    let mut changes = Changes {
        vectors: collection_vectors::check()?,
        ..Changes::default()
    };
    for code in codes {
        checks_are_right(code)?;
        let line = Paper.code_line_of(code);
        changes_of(CodeConversion::CodeToLine, code, &mut changes)?;
        changes_of(CodeConversion::LineToCode, &line, &mut changes)?;
    }
    // Without accepted changes nothing would show why the claim goes no further.
    let shown = [
        changes.accepted_in_codes,
        changes.accepted_in_lines,
        changes.accepted_at_the_identifier,
    ];
    if shown.contains(&0) {
        return Err("no change of a collection code without a claim was accepted".to_string());
    }
    Ok(changes)
}

/// As they are in other words.
fn checks_are_right(code: &[u8]) -> Result<(), String> {
    let identifier = code[IDENTIFIER_PLACE - 1];
    let modulus = Modulus::of_identifier(identifier).ok_or("no identifier")?;
    let general = check_by(modulus, &Paper.under_the_check(code));
    demand(general == code[CODE_CHECK_PLACE - 1], code)?;
    let line = Paper.code_line_of(code);
    for (block, place) in code.chunks(DIGITS_OF_A_BLOCK).zip(BLOCK_CHECK_PLACES) {
        demand(check_by(modulus, block) == line[place - 1], &line)?;
    }
    demand(Paper.code_of_line(&line) == code, &line)
}

fn changes_of(
    conversion: CodeConversion,
    string: &[u8],
    changes: &mut Changes,
) -> Result<(), String> {
    demand(is_accepted(conversion, string), string)?;
    for place in 1..=string.len() {
        for digit in (b'0'..=b'9').filter(|digit| *digit != string[place - 1]) {
            let mut changed = string.to_vec();
            changed[place - 1] = digit;
            let accepted = is_accepted(conversion, &changed);
            if is_claimed(conversion, string, place, digit) {
                demand(!accepted, &changed)?;
                changes.claimed_refused += 1;
                continue;
            }
            match conversion {
                CodeConversion::CodeToLine if place == IDENTIFIER_PLACE => {
                    changes.accepted_at_the_identifier += usize::from(accepted);
                }
                CodeConversion::CodeToLine => changes.accepted_in_codes += usize::from(accepted),
                CodeConversion::LineToCode => changes.accepted_in_lines += usize::from(accepted),
            }
        }
    }
    Ok(())
}

fn is_accepted(conversion: CodeConversion, string: &[u8]) -> bool {
    let room = conversion.result_digits();
    Paper.code_verdict(conversion, string, room) == Verdict::Accepted
}

/// Whether request 5 claims that this digit in the place of the right one is seen.
pub fn is_claimed(conversion: CodeConversion, string: &[u8], place: usize, digit: u8) -> bool {
    let identifier = string[IDENTIFIER_PLACE - 1];
    let modulus = Modulus::of_identifier(identifier);
    if place == IDENTIFIER_PLACE {
        let other_family = Modulus::of_identifier(digit) != modulus;
        return !(IDENTIFIERS.contains(&digit) && other_family);
    }
    let strong = string[CODE_CHECK_PLACE - 1] != WEAK_CHECK;
    let always = place == PRODUCT_PLACE || place == CODE_CHECK_PLACE;
    let by_its_block = match conversion {
        CodeConversion::CodeToLine => false,
        CodeConversion::LineToCode => is_seen_by_its_block(string, place),
    };
    modulus == Some(Modulus::Ten) || strong || always || by_its_block
}

/// The check of a block sees itself, and the other digits where it isn't 0; and
/// some together with the general check, where both are.
fn is_seen_by_its_block(line: &[u8], place: usize) -> bool {
    let mut checks = BLOCK_CHECK_PLACES.into_iter();
    let check = checks.find(|check| place <= *check);
    let by_the_check = check.is_some_and(|check| place == check || line[check - 1] != WEAK_CHECK);
    let mut apart = PLACES_WEIGHED_APART.iter();
    by_the_check || apart.any(|places| places.contains(&place))
}

fn demand(holds: bool, string: &[u8]) -> Result<(), String> {
    if holds {
        return Ok(());
    }
    let string = string.escape_ascii();
    Err(format!("{string}: not as request 5 says"))
}
