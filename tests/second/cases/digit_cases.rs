//! How the requests about digit strings are made. Strings are always made by
//! the rules of document 01, so that a seeded fault changes what is expected
//! and never what is asked.

use crate::asking::probe::{untouched, Request, BYTES_LIMIT, DIRECTIONS};
use crate::damage::digit_flaws::{all_flaw_sets, room_with, string_with, NON_DIGITS, SPARE_ROOMS};
use crate::making::good_barcodes::{checked_barcode_that, digits, few_of_each_check};
use crate::making::random::Random;
use crate::paper::digit_strings::{Conversion, DigitRules, BARCODE_CHECK_PLACE};
use crate::paper::digit_strings::{CURRENCY, CURRENCY_PLACE};
use crate::paper::examples::{DOCUMENT_004_LINE, PAPER_BARCODE, PAPER_LINE};
use crate::paper::Paper;

const CONVERSIONS: [Conversion; 2] = [Conversion::BarcodeToLine, Conversion::LineToBarcode];
const DIGITS: &[u8] = b"0123456789";
/// Around both results' lengths, too small ones and ample ones.
const ROOMS: [usize; 10] = [0, 1, 43, 44, 45, 46, 47, 48, 64, 300];
const LARGE_ROOMS: [usize; 5] = [1_000, 65_535, 65_536, BYTES_LIMIT - 1, BYTES_LIMIT];
const LARGE_LENGTHS: [usize; 6] = [1_000, 65_535, 65_536, 300_000, BYTES_LIMIT - 1, BYTES_LIMIT];
const LONGEST_SHORT_STRING: usize = 60;

const BARCODES_PER_REMAINDER: usize = 5;
/// The remainders of the general check that all give digit 1.
const REMAINDERS_OF_CHECK_ONE: [u32; 3] = [0, 1, 10];

const REPEATS_PER_LINE_FLAWS: usize = 10;
const REPEATS_PER_BARCODE_FLAWS: usize = 60;
const STRINGS_WITH_SEVERAL_CHANGES: usize = 1_500;
const MOST_CHANGES: usize = 4;
const RANDOM_STRINGS: usize = 200;

const NON_DIGIT_ONCE_IN: usize = 8;

/// All requests about digit strings, over the given accepted barcodes.
pub fn requests(random: &mut Random, barcodes: &[Vec<u8>]) -> Vec<Request> {
    let mut cases = DigitCases {
        random,
        requests: Vec::new(),
    };
    cases.document_examples();
    for barcode in barcodes {
        cases.accepted_in_all_rooms(barcode);
        cases.round_trip(barcode);
    }
    for barcode in few_of_each_check(barcodes) {
        for (conversion, string) in cases.both_strings(barcode) {
            cases.changed_places(conversion, &string);
            cases.moved_digits(conversion, &string);
        }
    }
    cases.remainders_of_check_one();
    cases.lengths();
    cases.large_requests();
    cases.unlikely_strings();
    cases.several_flaws();
    cases.several_changes(barcodes);
    cases.requests
}

struct DigitCases<'a> {
    random: &'a mut Random,
    requests: Vec<Request>,
}

impl DigitCases<'_> {
    fn ask(&mut self, conversion: Conversion, room: usize, string: Vec<u8>) {
        let direction = self.random.pick(&DIRECTIONS);
        self.requests
            .push(Request::new(conversion.op(), direction, room, string));
    }

    /// With room for the result, so that the string alone decides.
    fn ask_with_room(&mut self, conversion: Conversion, string: Vec<u8>) {
        let spare = self.random.pick(&SPARE_ROOMS);
        self.ask(conversion, conversion.result_digits() + spare, string);
    }

    fn both_strings(&self, barcode: &[u8]) -> [(Conversion, Vec<u8>); 2] {
        [
            (Conversion::BarcodeToLine, barcode.to_vec()),
            (Conversion::LineToBarcode, Paper.line_of(barcode)),
        ]
    }

    fn document_examples(&mut self) {
        for room in ROOMS {
            self.ask(Conversion::BarcodeToLine, room, PAPER_BARCODE.to_vec());
            self.ask(Conversion::LineToBarcode, room, PAPER_LINE.to_vec());
            self.ask(Conversion::LineToBarcode, room, DOCUMENT_004_LINE.to_vec());
        }
    }

    fn accepted_in_all_rooms(&mut self, barcode: &[u8]) {
        for (conversion, string) in self.both_strings(barcode) {
            for room in ROOMS {
                self.ask(conversion, room, string.clone());
            }
        }
    }

    /// The result of one request is the string of the next. It is taken from
    /// what is expected: the comparison holds only if the program gave just that.
    fn round_trip(&mut self, barcode: &[u8]) {
        let mut string = barcode.to_vec();
        for conversion in [CONVERSIONS[0], CONVERSIONS[1], CONVERSIONS[0]] {
            let memory = untouched(conversion.result_digits());
            let answer = Paper.converted(conversion, &string, memory);
            self.ask_with_room(conversion, string);
            string = answer.memory.unwrap_or_default();
        }
    }

    fn changed_places(&mut self, conversion: Conversion, string: &[u8]) {
        for at in 0..string.len() {
            for byte in DIGITS
                .iter()
                .chain(NON_DIGITS)
                .filter(|byte| **byte != string[at])
            {
                let mut changed = string.to_vec();
                changed[at] = *byte;
                self.ask_with_room(conversion, changed);
            }
        }
    }

    /// Neighbours swapped, a digit lost, a digit doubled; a digit that takes
    /// the place of a lost one keeps the length and so reaches the later checks.
    fn moved_digits(&mut self, conversion: Conversion, string: &[u8]) {
        for at in 0..string.len() {
            let mut lost = string.to_vec();
            lost.remove(at);
            let mut doubled = string.to_vec();
            doubled.insert(at, string[at]);
            let mut lost_and_filled = lost.clone();
            lost_and_filled.push(b'0');
            let mut doubled_and_cut = doubled.clone();
            doubled_and_cut.pop();
            let mut swapped = string.to_vec();
            swapped.swap(at, (at + 1) % string.len());
            for moved in [lost, doubled, lost_and_filled, doubled_and_cut, swapped] {
                self.ask_with_room(conversion, moved);
            }
        }
    }

    /// Each remainder that gives check 1, with every digit in the check's place.
    fn remainders_of_check_one(&mut self) {
        for remainder in REMAINDERS_OF_CHECK_ONE {
            for _ in 0..BARCODES_PER_REMAINDER {
                let fits = |barcode: &[u8]| Paper.general_remainder(barcode) == remainder;
                let mut barcode = checked_barcode_that(self.random, fits);
                for check in DIGITS {
                    barcode[BARCODE_CHECK_PLACE - 1] = *check;
                    for (conversion, string) in self.both_strings(&barcode) {
                        self.ask_with_room(conversion, string);
                    }
                }
            }
        }
    }

    fn lengths(&mut self) {
        for conversion in CONVERSIONS {
            for length in 0..=LONGEST_SHORT_STRING {
                for (_, mut string) in self.both_strings(PAPER_BARCODE) {
                    string.resize(length, b'0');
                    self.ask_with_room(conversion, string);
                }
                self.ask_with_room(conversion, vec![b'x'; length]);
                self.ask(conversion, 0, vec![b'9'; length]);
            }
        }
    }

    fn large_requests(&mut self) {
        for (conversion, string) in self.both_strings(PAPER_BARCODE) {
            for length in LARGE_LENGTHS {
                let mut long = string.clone();
                long.resize(length, b'0');
                self.ask_with_room(conversion, long);
            }
            for room in LARGE_ROOMS {
                self.ask(conversion, room, string.clone());
                self.ask(conversion, room, Vec::new());
            }
        }
        let everything = vec![b'9'; BYTES_LIMIT];
        self.ask(Conversion::LineToBarcode, BYTES_LIMIT, everything);
    }

    fn unlikely_strings(&mut self) {
        for conversion in CONVERSIONS {
            let length = conversion.given_digits();
            for byte in DIGITS.iter().chain(NON_DIGITS) {
                self.ask_with_room(conversion, vec![*byte; length]);
            }
            for _ in 0..RANDOM_STRINGS {
                let bytes = (0..length).map(|_| self.random.byte()).collect();
                self.ask_with_room(conversion, bytes);
                let mut numerals = digits(self.random, length);
                self.ask_with_room(conversion, numerals.clone());
                numerals[CURRENCY_PLACE - 1] = CURRENCY;
                self.ask_with_room(conversion, numerals);
            }
        }
    }

    /// Every combination of flaws, so that the order of refusals is tested.
    fn several_flaws(&mut self) {
        for conversion in CONVERSIONS {
            let repeats = match conversion {
                Conversion::BarcodeToLine => REPEATS_PER_BARCODE_FLAWS,
                Conversion::LineToBarcode => REPEATS_PER_LINE_FLAWS,
            };
            for flaws in all_flaw_sets(conversion) {
                for _ in 0..repeats {
                    let string = string_with(self.random, conversion, flaws);
                    let room = room_with(self.random, conversion, flaws);
                    self.ask(conversion, room, string);
                }
            }
        }
    }

    /// Changes at random places of accepted strings, with random rooms.
    fn several_changes(&mut self, barcodes: &[Vec<u8>]) {
        for _ in 0..STRINGS_WITH_SEVERAL_CHANGES {
            let chosen = self.random.below(barcodes.len());
            for (conversion, mut string) in self.both_strings(&barcodes[chosen]) {
                for _ in 0..self.random.between(2, MOST_CHANGES) {
                    let at = self.random.below(string.len());
                    let rarely = self.random.below(NON_DIGIT_ONCE_IN) == 0;
                    let choices = if rarely { NON_DIGITS } else { DIGITS };
                    string[at] = self.random.pick(choices);
                }
                let room = self.random.pick(&ROOMS);
                self.ask(conversion, room, string);
            }
        }
    }
}
