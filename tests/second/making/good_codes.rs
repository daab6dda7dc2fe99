//! Good codes of the collection family made at random.

use crate::making::good_barcodes::digits;
use crate::making::random::Random;
use crate::paper::collection_codes::{
    CodeRules, BLOCKS, CODE_CHECK_PLACE, CODE_DIGITS, DIGITS_OF_A_BLOCK, IDENTIFIER_PLACE, PRODUCT,
    PRODUCT_PLACE,
};
use crate::paper::examples::COLLECTION_EXAMPLES;
use crate::paper::Paper;

pub const IDENTIFIERS: [u8; 4] = *b"6789";
const CODES_PER_CHECK: usize = 3;
/// Check 0 of modulus 11 stands for two remainders and guards fewer places.
const CODES_WITH_CHECK_ZERO: usize = 8;
/// Whole blocks of zeros are common in codes.
const EMPTY_BLOCK_ONCE_IN: usize = 4;

/// Accepted codes with every identifier and every general check that it can have,
/// and the examples.
pub fn accepted_codes(random: &mut Random) -> Vec<Vec<u8>> {
    let examples = COLLECTION_EXAMPLES.iter();
    let mut codes: Vec<Vec<u8>> = examples.map(|(code, _)| code.to_vec()).collect();
    for identifier in IDENTIFIERS {
        for check in b'0'..=b'9' {
            let wanted = if check == b'0' {
                CODES_WITH_CHECK_ZERO
            } else {
                CODES_PER_CHECK
            };
            for _ in 0..wanted {
                let fits = |code: &[u8]| code[CODE_CHECK_PLACE - 1] == check;
                codes.push(code_that(random, identifier, fits));
            }
        }
    }
    codes
}

pub fn any_code(random: &mut Random) -> Vec<u8> {
    let identifier = random.pick(&IDENTIFIERS);
    code_with(random, identifier)
}

pub fn code_that(random: &mut Random, identifier: u8, fits: impl Fn(&[u8]) -> bool) -> Vec<u8> {
    loop {
        let code = code_with(random, identifier);
        if fits(&code) {
            return code;
        }
    }
}

/// Any digits, or blocks of zeros among them.
pub fn code_with(random: &mut Random, identifier: u8) -> Vec<u8> {
    let mut code = digits(random, CODE_DIGITS);
    for block in 0..BLOCKS {
        if random.below(EMPTY_BLOCK_ONCE_IN) == 0 {
            code[block * DIGITS_OF_A_BLOCK..][..DIGITS_OF_A_BLOCK].fill(b'0');
        }
    }
    code[PRODUCT_PLACE - 1] = PRODUCT;
    code[IDENTIFIER_PLACE - 1] = identifier;
    set_code_check(&mut code);
    code
}

/// Makes the general check right for the other digits; it stays where no
/// identifier says how it is made.
pub fn set_code_check(code: &mut [u8]) {
    if let Some(check) = Paper.code_check(code) {
        code[CODE_CHECK_PLACE - 1] = check;
    }
}

/// The first of each identifier and general check.
pub fn one_of_each_check(codes: &[Vec<u8>]) -> Vec<&Vec<u8>> {
    let mut few: Vec<&Vec<u8>> = Vec::new();
    let marks = |code: &[u8]| [code[IDENTIFIER_PLACE - 1], code[CODE_CHECK_PLACE - 1]];
    for code in codes {
        if few.iter().all(|other| marks(other) != marks(code)) {
            few.push(code);
        }
    }
    few
}
