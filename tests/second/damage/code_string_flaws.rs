//! What can be wrong with a request about a code of the collection family or its
//! line.

use crate::damage::digit_flaws::{NON_DIGITS, SPARE_ROOMS};
use crate::making::good_codes::{any_code, set_code_check};
use crate::making::random::Random;
use crate::paper::collection_codes::{
    CodeConversion, CodeRules, BLOCKS, BLOCK_CHECK_PLACES, CODE_CHECK_PLACE, CODE_DIGITS,
    CODE_LINE_DIGITS, DIGITS_OF_A_BLOCK, IDENTIFIER_PLACE, PRODUCT, PRODUCT_PLACE,
};
use crate::paper::digit_strings::LINE_DIGITS;
use crate::paper::Paper;

/// All independent of each other, but that a wrong identifier leaves no check to
/// be wrong. The checks of blocks come last, since codes have none.
const WRONG_LENGTH: usize = 0;
const WITH_NON_DIGIT: usize = 1;
const WRONG_PRODUCT: usize = 2;
const WRONG_IDENTIFIER: usize = 3;
const WRONG_GENERAL_CHECK: usize = 4;
const SMALL_ROOM: usize = 5;
const WRONG_BLOCK_CHECKS: [usize; BLOCKS] = [6, 7, 8, 9];
const KINDS_OF_CODE_FLAWS: usize = 6;
const KINDS_OF_LINE_FLAWS: usize = 10;

const NO_IDENTIFIERS: &[u8] = b"012345";

/// A set of the flaws above, one bit each.
#[derive(Clone, Copy)]
pub struct FlawSet(usize);

impl FlawSet {
    fn has(self, flaw: usize) -> bool {
        self.0 >> flaw & 1 == 1
    }
}

/// Every combination of flaws.
pub fn all_flaw_sets(conversion: CodeConversion) -> impl Iterator<Item = FlawSet> {
    let kinds = match conversion {
        CodeConversion::CodeToLine => KINDS_OF_CODE_FLAWS,
        CodeConversion::LineToCode => KINDS_OF_LINE_FLAWS,
    };
    (0..1 << kinds).map(FlawSet)
}

/// What a check covers is changed before that check is made, so that no flaw
/// brings another one along.
pub fn string_with(random: &mut Random, conversion: CodeConversion, flaws: FlawSet) -> Vec<u8> {
    let mut code = any_code(random);
    if flaws.has(WRONG_PRODUCT) {
        code[PRODUCT_PLACE - 1] = random.other_digit(PRODUCT);
    }
    set_code_check(&mut code);
    if flaws.has(WRONG_GENERAL_CHECK) {
        let check = &mut code[CODE_CHECK_PLACE - 1];
        *check = random.other_digit(*check);
    }
    let mut string = match conversion {
        CodeConversion::CodeToLine => code,
        CodeConversion::LineToCode => Paper.code_line_of(&code),
    };
    for (flaw, place) in WRONG_BLOCK_CHECKS.into_iter().zip(BLOCK_CHECK_PLACES) {
        if flaws.has(flaw) {
            string[place - 1] = random.other_digit(string[place - 1]);
        }
    }
    if flaws.has(WRONG_IDENTIFIER) {
        string[IDENTIFIER_PLACE - 1] = random.pick(NO_IDENTIFIERS);
    }
    if flaws.has(WITH_NON_DIGIT) {
        let early = random.between(1, CODE_CHECK_PLACE);
        let late = random.between(DIGITS_OF_A_BLOCK, string.len());
        let place = random.pick(&[early, late]);
        string[place - 1] = random.pick(NON_DIGITS);
    }
    if flaws.has(WRONG_LENGTH) {
        spoil_length(random, &mut string);
    }
    string
}

/// One digit too few or too many, or the length of another string.
fn spoil_length(random: &mut Random, string: &mut Vec<u8>) {
    let length = string.len();
    let mut lengths = vec![0, 1, length - 1, length + 1];
    lengths.extend([CODE_DIGITS, LINE_DIGITS, CODE_LINE_DIGITS]);
    lengths.retain(|other| *other != length);
    let spoiled = random.pick(&lengths);
    string.resize(spoiled, b'0');
}

pub fn room_with(random: &mut Random, conversion: CodeConversion, flaws: FlawSet) -> usize {
    let needed = conversion.result_digits();
    if flaws.has(SMALL_ROOM) {
        random.pick(&[0, 1, needed - 1])
    } else {
        needed + random.pick(&SPARE_ROOMS)
    }
}
