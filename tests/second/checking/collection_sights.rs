//! What can be seen of O records and of collection codes in the requests of a run.

use crate::asking::probe::{Call, Request};
use crate::checking::collection_arithmetic::check_by;
use crate::checking::judged_records::Judged;
use crate::paper::answers::{Answer, Verdict};
use crate::paper::collection_codes::{CodeRules, Modulus, CODE_DIGITS};
use crate::paper::numbers::{WRONG_CODE_CHECK, WRONG_IDENTIFIER, WRONG_PRODUCT};
use crate::paper::places::{AMOUNT_OF_O, CODE, CODE_CHECK, CODE_IDENTIFIER, CODE_PRODUCT};
use crate::paper::record_kinds::RecordKind;
use crate::paper::record_rules::all_digits;
use crate::paper::totals::Movement;
use crate::paper::Paper;

/// What is to be said of a code, worked out in other words than the paper's.
#[derive(Clone, Copy, PartialEq, Eq, PartialOrd, Ord, Debug)]
pub enum Sort {
    /// By its identifier.
    Right(char),
    WrongProduct,
    WrongIdentifier,
    /// By its identifier.
    WrongCheck(char),
    /// Not all digits.
    NoCode,
}

pub const WRONG_CODE_NUMBERS: [u32; 3] = [WRONG_PRODUCT, WRONG_IDENTIFIER, WRONG_CODE_CHECK];

/// Ops and directions are named by their codes, fields by their first place.
#[derive(Clone, Copy, PartialEq, Eq, PartialOrd, Ord, Debug)]
pub enum Sight {
    /// An O that was taken, or the number and the place it was refused with.
    Code {
        op: char,
        direction: char,
        sort: Sort,
        refused: Option<(u32, usize)>,
    },
    /// A wrong code in an O that was refused for another field.
    Behind {
        op: char,
        direction: char,
        sort: Sort,
        by: usize,
    },
    /// An O that was taken, live or withdrawn, with and without cents.
    Taken {
        op: char,
        direction: char,
        movement: Movement,
        has_cents: bool,
    },
    /// A digit string that was converted: its identifier and its general check.
    Converted {
        op: char,
        identifier: char,
        check: char,
    },
    /// A digit string of so many digits in a call for the other family or for the
    /// other length.
    OfWrongLength { op: char, digits: usize },
}

pub fn sights_of_record(judged: &Judged) -> Vec<Sight> {
    if judged.subject.kind != RecordKind::O {
        return Vec::new();
    }
    let op = char::from(judged.op.code());
    let direction = char::from(judged.subject.direction.code());
    let sort = sort_of(CODE.of(&judged.bytes));
    let wrong = !matches!(sort, Sort::Right(_) | Sort::NoCode);
    match judged.refusal {
        None => vec![
            Sight::Taken {
                op,
                direction,
                movement: Movement::of(&judged.bytes),
                has_cents: AMOUNT_OF_O.number(&judged.bytes) > 0,
            },
            Sight::Code {
                op,
                direction,
                sort,
                refused: None,
            },
        ],
        Some((number, by)) if wrong && !WRONG_CODE_NUMBERS.contains(&number) => {
            vec![Sight::Behind {
                op,
                direction,
                sort,
                by,
            }]
        }
        refused => vec![Sight::Code {
            op,
            direction,
            sort,
            refused,
        }],
    }
}

/// The first thing that is wrong with a code.
fn sort_of(code: &[u8]) -> Sort {
    if !all_digits(code) {
        return Sort::NoCode;
    }
    let place = |place: usize| code[place - CODE.first];
    if place(CODE_PRODUCT.first) != b'8' {
        return Sort::WrongProduct;
    }
    let identifier = place(CODE_IDENTIFIER.first);
    let modulus = match identifier {
        b'6' | b'7' => Modulus::Ten,
        b'8' | b'9' => Modulus::Eleven,
        _ => return Sort::WrongIdentifier,
    };
    let check = check_by(modulus, &Paper.under_the_check(code));
    if check == place(CODE_CHECK.first) {
        Sort::Right(char::from(identifier))
    } else {
        Sort::WrongCheck(char::from(identifier))
    }
}

/// Of a request about a digit string.
pub fn sight_of_string(request: &Request, answer: &Answer) -> Option<Sight> {
    let op = char::from(request.op_code());
    let given = &request.payload;
    match (request.call()?, answer.lines.first()?.verdict) {
        (Call::CodeToLine { .. } | Call::CodeLineToCode { .. }, Verdict::Accepted) => {
            Some(Sight::Converted {
                op,
                identifier: char::from(given[2]),
                check: char::from(given[3]),
            })
        }
        (
            Call::CodeToLine { .. }
            | Call::CodeLineToCode { .. }
            | Call::BarcodeToLine { .. }
            | Call::LineToBarcode { .. },
            Verdict::Refused { number: 40, .. },
        ) if given.len() >= CODE_DIGITS && all_digits(given) => Some(Sight::OfWrongLength {
            op,
            digits: given.len(),
        }),
        _ => None,
    }
}
