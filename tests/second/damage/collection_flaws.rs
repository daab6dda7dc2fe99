//! Codes of the collection family that are wrong, or nearly so.

use crate::making::good_codes::{any_code, code_that, code_with, set_code_check, IDENTIFIERS};
use crate::making::random::Random;
use crate::paper::collection_codes::{
    CodeRules, Modulus, CODE_CHECK_PLACE, CODE_DIGITS, IDENTIFIER_PLACE, PRODUCT_PLACE,
};
use crate::paper::places::{CODE, CODE_IDENTIFIER, CODE_PRODUCT};
use crate::paper::Paper;

const DIGITS: &[u8] = b"0123456789";
const NO_IDENTIFIERS: &[u8] = b"012345";
const NO_PRODUCTS: &[u8] = b"012345679";
/// Those of modulus 11 that give no digit of their own, and the one that gives 1.
const REMAINDERS_OF_NOTE: [u32; 3] = [0, 1, 10];
const ANY_CODES: usize = 6;

/// Another product, the check being right for it.
pub fn spoil_product(random: &mut Random, line: &mut [u8]) {
    CODE_PRODUCT.put(line, &[random.pick(NO_PRODUCTS)]);
    let mut code = CODE.of(line).to_vec();
    set_code_check(&mut code);
    CODE.put(line, &code);
}

pub fn spoil_identifier(random: &mut Random, line: &mut [u8]) {
    CODE_IDENTIFIER.put(line, &[random.pick(NO_IDENTIFIERS)]);
}

/// Puts any code of note into a line or a record.
pub fn spoil_code(random: &mut Random, line: &mut [u8]) {
    CODE.put(line, &any_code_of_note(random));
}

pub fn any_code_of_note(random: &mut Random) -> Vec<u8> {
    match random.below(5) {
        0 => with_product(random),
        1 => with_no_identifier(random),
        2 => {
            let code = any_code(random);
            let place = random.between(1, CODE_DIGITS);
            with_other_digit(random, code, place)
        }
        3 => {
            let code = any_code(random);
            of_the_other_family(code)
        }
        _ => {
            let code = any_code(random);
            with_other_digit(random, code, CODE_CHECK_PLACE)
        }
    }
}

/// One for each number that a code can be refused with, that of the check by both
/// moduli.
pub fn one_of_each_number(random: &mut Random) -> [Vec<u8>; 4] {
    let [by_ten, by_eleven] = [b'6', b'8'].map(|identifier| {
        let code = code_with(random, identifier);
        with_other_digit(random, code, CODE_CHECK_PLACE)
    });
    [
        with_product(random),
        with_no_identifier(random),
        by_ten,
        by_eleven,
    ]
}

/// Right codes of every sort and wrong ones: a digit changed at every place, every
/// product, every identifier and every check, and neither product nor identifier.
pub fn codes_of_note(random: &mut Random) -> Vec<Vec<u8>> {
    let mut codes: Vec<Vec<u8>> = (0..ANY_CODES).map(|_| any_code(random)).collect();
    for place in 1..=CODE_DIGITS {
        let code = any_code(random);
        codes.push(with_other_digit(random, code, place));
    }
    for digit in DIGITS {
        let mut code = any_code(random);
        code[PRODUCT_PLACE - 1] = *digit;
        set_code_check(&mut code);
        codes.push(code);
        let mut code = any_code(random);
        code[IDENTIFIER_PLACE - 1] = *digit;
        codes.push(code);
    }
    for identifier in IDENTIFIERS {
        let code = code_with(random, identifier);
        codes.extend(with_every_check(&code));
        codes.push(of_the_other_family(code));
    }
    codes.extend(codes_with_remainders(random));
    for _ in 0..ANY_CODES {
        let mut code = with_no_identifier(random);
        code[PRODUCT_PLACE - 1] = random.pick(NO_PRODUCTS);
        codes.push(code);
    }
    codes
}

/// The remainders of note of both identifiers that go by modulus 11, each with
/// every digit in the check's place.
fn codes_with_remainders(random: &mut Random) -> Vec<Vec<u8>> {
    let mut codes = Vec::new();
    for identifier in IDENTIFIERS {
        if Modulus::of_identifier(identifier) == Some(Modulus::Eleven) {
            for remainder in REMAINDERS_OF_NOTE {
                codes.extend(with_every_check(&code_with_remainder(
                    random, identifier, remainder,
                )));
            }
        }
    }
    codes
}

/// A right code of modulus 11 whose check comes from this remainder.
pub fn code_with_remainder(random: &mut Random, identifier: u8, remainder: u32) -> Vec<u8> {
    code_that(random, identifier, |code| {
        Paper.remainder_by_eleven(&Paper.under_the_check(code)) == remainder
    })
}

pub fn with_every_check(code: &[u8]) -> Vec<Vec<u8>> {
    let codes = DIGITS.iter().map(|check| {
        let mut code = code.to_vec();
        code[CODE_CHECK_PLACE - 1] = *check;
        code
    });
    codes.collect()
}

pub fn with_other_digit(random: &mut Random, mut code: Vec<u8>, place: usize) -> Vec<u8> {
    code[place - 1] = random.other_digit(code[place - 1]);
    code
}

fn with_product(random: &mut Random) -> Vec<u8> {
    let mut code = any_code(random);
    code[PRODUCT_PLACE - 1] = random.pick(NO_PRODUCTS);
    set_code_check(&mut code);
    code
}

fn with_no_identifier(random: &mut Random) -> Vec<u8> {
    let mut code = any_code(random);
    code[IDENTIFIER_PLACE - 1] = random.pick(NO_IDENTIFIERS);
    code
}

/// The identifier goes to the other modulus, and the check stays as it was.
pub fn of_the_other_family(mut code: Vec<u8>) -> Vec<u8> {
    let identifier = &mut code[IDENTIFIER_PLACE - 1];
    *identifier = match *identifier {
        b'6' => b'8',
        b'7' => b'9',
        b'8' => b'6',
        _ => b'7',
    };
    code
}
