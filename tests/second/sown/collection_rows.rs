//! Mistakes about the rows that refuse a collection code or its line: their order,
//! those that are not tested, and what they name.

use super::collection_faults::CollectionFault;
use super::Sown;
use crate::paper::collection_codes::{
    CodeConversion, CodeRules, Row, BLOCKS, CODE_CHECK_PLACE, CODE_DIGITS, CODE_LINE_DIGITS,
    DIGITS_OF_A_BLOCK, IDENTIFIER_PLACE,
};
use crate::paper::digit_strings::BARCODE_CHECK_PLACE;
use crate::paper::numbers::{
    WRONG_BLOCK_CHECK, WRONG_CODE_CHECK, WRONG_CURRENCY, WRONG_FIELD_CHECK, WRONG_GENERAL_CHECK,
    WRONG_IDENTIFIER, WRONG_PRODUCT,
};
use crate::paper::Paper;

/// As the paper has it, over the rules with the fault. A check may be asked for
/// where the paper asks for none any more.
pub fn right_refusal(
    sown: &Sown,
    row: Row,
    conversion: CodeConversion,
    given: &[u8],
    room: usize,
) -> Option<(u32, usize)> {
    match row {
        Row::Length
            if sown.collection_fault() == Some(CollectionFault::LengthNotTested)
                && given.len() > conversion.given_digits() =>
        {
            None
        }
        Row::Length | Row::NonDigit | Row::Room => Paper.code_refusal(row, conversion, given, room),
        Row::Product => (!sown.is_product(given[0])).then_some((WRONG_PRODUCT, 1)),
        Row::Identifier => {
            let modulus = sown.modulus_of(given[IDENTIFIER_PLACE - 1]);
            modulus
                .is_none()
                .then_some((WRONG_IDENTIFIER, IDENTIFIER_PLACE))
        }
        Row::Block(block) => {
            let place = (block + 1) * (DIGITS_OF_A_BLOCK + 1);
            let digits = &given[place - 1 - DIGITS_OF_A_BLOCK..place - 1];
            let check = sown.block_check(given[IDENTIFIER_PLACE - 1], digits)?;
            (check != given[place - 1]).then_some((WRONG_BLOCK_CHECK, place))
        }
        Row::General => {
            let code = match conversion {
                CodeConversion::CodeToLine => given[..CODE_DIGITS].to_vec(),
                CodeConversion::LineToCode => Paper.code_of_line(&given[..CODE_LINE_DIGITS]),
            };
            let wrong = sown.code_check(&code)? != code[CODE_CHECK_PLACE - 1];
            wrong.then_some((WRONG_CODE_CHECK, CODE_CHECK_PLACE))
        }
    }
}

pub fn is_left_out(fault: CollectionFault, row: Row) -> bool {
    match (fault, row) {
        (CollectionFault::CheckNotTested, Row::General)
        | (CollectionFault::BlocksNotTested, Row::Block(_)) => true,
        (CollectionFault::OnlyTheFirstBlockTested, Row::Block(block)) => block > 0,
        (CollectionFault::LastBlockNotTested, Row::Block(block)) => block + 1 == BLOCKS,
        _ => false,
    }
}

/// Rows, and the others that they are tested before, one move behind the other.
pub fn moves(fault: CollectionFault) -> Vec<(Row, Row)> {
    let blocks = (0..BLOCKS).map(Row::Block);
    match fault {
        CollectionFault::IdentifierBeforeProduct => vec![(Row::Identifier, Row::Product)],
        CollectionFault::CheckBeforeIdentifier => vec![(Row::General, Row::Identifier)],
        CollectionFault::CheckBeforeProduct => vec![(Row::General, Row::Product)],
        CollectionFault::CheckBeforeBlocks => vec![(Row::General, Row::Block(0))],
        CollectionFault::BlocksBeforeProduct => blocks.map(|block| (block, Row::Product)).collect(),
        CollectionFault::BlocksBeforeIdentifier => {
            blocks.map(|block| (block, Row::Identifier)).collect()
        }
        CollectionFault::BlocksFromTheRight => (1..BLOCKS)
            .map(|block| (Row::Block(block), Row::Block(block - 1)))
            .collect(),
        CollectionFault::NonDigitBeforeDigitCount => vec![(Row::NonDigit, Row::Length)],
        CollectionFault::RoomBeforeTheString => vec![(Row::Room, Row::Length)],
        CollectionFault::RoomBeforeTheCheck => vec![(Row::Room, Row::General)],
        _ => Vec::new(),
    }
}

/// The number and the place that a refusal of a string names.
pub fn renamed(fault: CollectionFault, (number, place): (u32, usize)) -> (u32, usize) {
    match (fault, number) {
        (CollectionFault::WrongProductIs43, WRONG_PRODUCT) => (WRONG_CURRENCY, place),
        (CollectionFault::WrongIdentifierIs52, WRONG_IDENTIFIER) => (WRONG_PRODUCT, place),
        (CollectionFault::WrongCheckIs44, WRONG_CODE_CHECK) => (WRONG_GENERAL_CHECK, place),
        (CollectionFault::WrongBlockIs42, WRONG_BLOCK_CHECK) => (WRONG_FIELD_CHECK, place),
        (CollectionFault::CheckNamedAtTheBoletosPlace, WRONG_CODE_CHECK) => {
            (number, BARCODE_CHECK_PLACE)
        }
        (CollectionFault::IdentifierNamedAtTheProduct, WRONG_IDENTIFIER) => (number, 1),
        (CollectionFault::BlockNamedAtItsStart, WRONG_BLOCK_CHECK) => {
            (number, place - DIGITS_OF_A_BLOCK)
        }
        (CollectionFault::BlockNamedInTheCode, WRONG_BLOCK_CHECK) => {
            (number, place - place / (DIGITS_OF_A_BLOCK + 1))
        }
        (CollectionFault::BlockNamedByItsNumber, WRONG_BLOCK_CHECK) => {
            (number, place / (DIGITS_OF_A_BLOCK + 1))
        }
        _ => (number, place),
    }
}
