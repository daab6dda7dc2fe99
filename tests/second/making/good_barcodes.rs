//! Good barcodes made at random.

use crate::making::random::Random;
use crate::paper::digit_strings::{DigitRules, BARCODE_CHECK_PLACE, CURRENCY, CURRENCY_PLACE};
use crate::paper::examples::PAPER_BARCODE;
use crate::paper::Paper;

const BARCODES_PER_CHECK: usize = 20;
/// Check 1 stands for three remainders and is where strings are less guarded.
const BARCODES_WITH_CHECK_ONE: usize = 60;
const CHANGED_PER_CHECK: usize = 1;
const CHANGED_WITH_CHECK_ONE: usize = 3;

const FACTOR_DIGITS: usize = 4;
const CENTS_DIGITS: usize = 10;
const FREE_DIGITS: usize = 25;
const ZEROS_ONCE_IN: usize = 4;
const FACTORS: [&[u8; FACTOR_DIGITS]; 5] = [b"0000", b"0001", b"1000", b"7269", b"9999"];

/// Accepted barcodes with every general check digit there is.
pub fn accepted_barcodes(random: &mut Random) -> Vec<Vec<u8>> {
    let mut barcodes = vec![PAPER_BARCODE.to_vec()];
    for check in b'1'..=b'9' {
        let wanted = if check == b'1' {
            BARCODES_WITH_CHECK_ONE
        } else {
            BARCODES_PER_CHECK
        };
        for _ in 0..wanted {
            let fits = |barcode: &[u8]| Paper.general_check(barcode) == check;
            barcodes.push(checked_barcode_that(random, fits));
        }
    }
    barcodes
}

pub fn checked_barcode_that(random: &mut Random, fits: impl Fn(&[u8]) -> bool) -> Vec<u8> {
    loop {
        let mut barcode = unchecked_barcode(random);
        if fits(&barcode) {
            set_general_check(&mut barcode);
            return barcode;
        }
    }
}

/// Right but for its general check, which is 0. Factor, cents and free digits
/// are zero often enough to meet strings that are nearly empty.
pub fn unchecked_barcode(random: &mut Random) -> Vec<u8> {
    let mut barcode = digits(random, CURRENCY_PLACE - 1);
    barcode.push(CURRENCY);
    barcode.push(b'0');
    let factor = if random.coin() {
        random.pick(&FACTORS).to_vec()
    } else {
        digits(random, FACTOR_DIGITS)
    };
    barcode.extend(factor);
    barcode.extend(digits_or_zeros(random, CENTS_DIGITS));
    barcode.extend(digits_or_zeros(random, FREE_DIGITS - 1));
    barcode.push(random.digit());
    barcode
}

pub fn digits(random: &mut Random, count: usize) -> Vec<u8> {
    (0..count).map(|_| random.digit()).collect()
}

fn digits_or_zeros(random: &mut Random, count: usize) -> Vec<u8> {
    if random.below(ZEROS_ONCE_IN) == 0 {
        vec![b'0'; count]
    } else {
        digits(random, count)
    }
}

pub fn set_general_check(barcode: &mut [u8]) {
    barcode[BARCODE_CHECK_PLACE - 1] = Paper.general_check(barcode);
}

pub fn few_of_each_check(barcodes: &[Vec<u8>]) -> Vec<&Vec<u8>> {
    let mut few = vec![&barcodes[0]];
    for check in b'1'..=b'9' {
        let wanted = if check == b'1' {
            CHANGED_WITH_CHECK_ONE
        } else {
            CHANGED_PER_CHECK
        };
        let others = barcodes.iter().skip(1);
        let with_check = others.filter(|barcode| barcode[BARCODE_CHECK_PLACE - 1] == check);
        few.extend(with_check.take(wanted));
    }
    few
}
