//! What can be wrong with a request about a digit string.

use crate::making::good_barcodes::{set_general_check, unchecked_barcode};
use crate::making::random::Random;
use crate::paper::digit_strings::{Conversion, DigitRules, BARCODE_DIGITS, CURRENCY};
use crate::paper::digit_strings::{CURRENCY_PLACE, FIELD_CHECK_PLACES, LINE_DIGITS};
use crate::paper::Paper;

/// The neighbours of the digits, blanks, line ends, letters and both extremes.
pub const NON_DIGITS: &[u8] = b"\x00/: \xFF\nAz-";
/// Bytes behind the result, which the call must leave as they are.
pub const SPARE_ROOMS: [usize; 3] = [0, 1, 20];

/// What can be wrong with a request about a digit string, all independent of
/// each other. Field checks come last, since barcodes have none.
const WRONG_LENGTH: usize = 0;
const WITH_NON_DIGIT: usize = 1;
const WRONG_CURRENCY: usize = 2;
const WRONG_GENERAL_CHECK: usize = 3;
const SMALL_ROOM: usize = 4;
const WRONG_FIELD_CHECKS: [usize; 3] = [5, 6, 7];
const KINDS_OF_BARCODE_FLAWS: usize = 5;
const KINDS_OF_LINE_FLAWS: usize = 8;

/// A set of the flaws above, one bit each.
#[derive(Clone, Copy)]
pub struct FlawSet(usize);

impl FlawSet {
    fn has(self, flaw: usize) -> bool {
        self.0 >> flaw & 1 == 1
    }
}

/// Every combination of flaws.
pub fn all_flaw_sets(conversion: Conversion) -> impl Iterator<Item = FlawSet> {
    let kinds = match conversion {
        Conversion::BarcodeToLine => KINDS_OF_BARCODE_FLAWS,
        Conversion::LineToBarcode => KINDS_OF_LINE_FLAWS,
    };
    (0..1 << kinds).map(FlawSet)
}

/// The currency is changed before the checks are made, and the checks are
/// changed alone, so that no flaw brings another one along.
pub fn string_with(random: &mut Random, conversion: Conversion, flaws: FlawSet) -> Vec<u8> {
    let mut barcode = unchecked_barcode(random);
    if flaws.has(WRONG_CURRENCY) {
        barcode[CURRENCY_PLACE - 1] = random.other_digit(CURRENCY);
    }
    set_general_check(&mut barcode);
    let mut string = match conversion {
        Conversion::BarcodeToLine => barcode,
        Conversion::LineToBarcode => Paper.line_of(&barcode),
    };
    let field_flaws = WRONG_FIELD_CHECKS.into_iter().zip(FIELD_CHECK_PLACES);
    let general_flaw = (WRONG_GENERAL_CHECK, conversion.check_place());
    for (flaw, place) in field_flaws.chain([general_flaw]) {
        if flaws.has(flaw) {
            string[place - 1] = random.other_digit(string[place - 1]);
        }
    }
    if flaws.has(WITH_NON_DIGIT) {
        put_non_digit(random, &mut string);
    }
    if flaws.has(WRONG_LENGTH) {
        spoil_length(random, &mut string);
    }
    string
}

/// Before the currency's place as often as behind it.
fn put_non_digit(random: &mut Random, string: &mut [u8]) {
    let place = if random.coin() {
        random.between(1, CURRENCY_PLACE - 1)
    } else {
        random.between(CURRENCY_PLACE + 1, string.len())
    };
    string[place - 1] = random.pick(NON_DIGITS);
}

/// One digit too few or too many, or the length of the other string.
fn spoil_length(random: &mut Random, string: &mut Vec<u8>) {
    let length = string.len();
    let other = if length == BARCODE_DIGITS {
        LINE_DIGITS
    } else {
        BARCODE_DIGITS
    };
    let spoiled = random.pick(&[0, 1, length - 1, length + 1, other]);
    string.resize(spoiled, b'0');
}

pub fn room_with(random: &mut Random, conversion: Conversion, flaws: FlawSet) -> usize {
    let needed = conversion.result_digits();
    if flaws.has(SMALL_ROOM) {
        random.pick(&[0, 1, needed - 1])
    } else {
        needed + random.pick(&SPARE_ROOMS)
    }
}
