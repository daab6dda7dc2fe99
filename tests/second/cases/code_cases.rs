//! How the requests about the codes of the collection family and their lines are
//! made. The rules of the papers alone make the strings, so that a seeded fault
//! changes what is expected and never what is asked.

use crate::asking::probe::{untouched, Op, Request, BYTES_LIMIT, DIRECTIONS};
use crate::damage::code_string_flaws::{all_flaw_sets, room_with, string_with};
use crate::damage::collection_flaws::{code_with_remainder, codes_of_note, with_every_check};
use crate::damage::digit_flaws::{NON_DIGITS, SPARE_ROOMS};
use crate::making::good_barcodes::digits;
use crate::making::good_codes::{code_with, one_of_each_check, IDENTIFIERS};
use crate::making::random::Random;
use crate::paper::collection_codes::{
    CodeConversion, CodeRules, Modulus, CODE_CONVERSIONS, IDENTIFIER_PLACE, PRODUCT, PRODUCT_PLACE,
};
use crate::paper::examples::{COLLECTION_EXAMPLES, PAPER_BARCODE, PAPER_LINE};
use crate::paper::Paper;

const DIGITS: &[u8] = b"0123456789";
/// Around both results' lengths, too small ones and ample ones.
const ROOMS: [usize; 11] = [0, 1, 43, 44, 45, 46, 47, 48, 49, 64, 300];
const LARGE_ROOMS: [usize; 3] = [65_536, BYTES_LIMIT - 1, BYTES_LIMIT];
const LARGE_LENGTHS: [usize; 4] = [1_000, 65_536, BYTES_LIMIT - 1, BYTES_LIMIT];
const LONGEST_SHORT_STRING: usize = 60;
const REPEATS_PER_CODE_FLAWS: usize = 12;
const REPEATS_PER_LINE_FLAWS: usize = 2;
const REMAINDERS: u32 = 11;
const STRINGS_WITH_SEVERAL_CHANGES: usize = 500;
const MOST_CHANGES: usize = 4;
const RANDOM_STRINGS: usize = 60;
const NON_DIGIT_ONCE_IN: usize = 8;
const ROUNDS_OF_NOTE: usize = 3;

/// All requests about such strings, over the given accepted codes.
pub fn requests(random: &mut Random, codes: &[Vec<u8>]) -> Vec<Request> {
    let requests = Vec::new();
    let mut cases = CodeCases { random, requests };
    cases.examples();
    for code in codes {
        cases.accepted_in_all_rooms(code);
        cases.round_trip(code);
    }
    for code in one_of_each_check(codes) {
        for (conversion, string) in both_strings(code) {
            cases.changed_places(conversion, &string);
        }
    }
    for (code, _) in COLLECTION_EXAMPLES {
        for (conversion, string) in both_strings(code) {
            cases.moved_digits(conversion, &string);
        }
    }
    cases.every_remainder();
    cases.codes_and_lines_of_note();
    cases.of_the_other_family(codes);
    cases.lengths();
    cases.large_requests();
    cases.unlikely_strings();
    cases.several_flaws();
    cases.several_changes(codes);
    cases.requests
}

/// A code, and its line.
fn both_strings(code: &[u8]) -> [(CodeConversion, Vec<u8>); 2] {
    [
        (CodeConversion::CodeToLine, code.to_vec()),
        (CodeConversion::LineToCode, Paper.code_line_of(code)),
    ]
}

struct CodeCases<'a> {
    random: &'a mut Random,
    requests: Vec<Request>,
}

impl CodeCases<'_> {
    fn ask(&mut self, op: Op, room: usize, string: Vec<u8>) {
        let direction = self.random.pick(&DIRECTIONS);
        self.requests
            .push(Request::new(op, direction, room, string));
    }

    /// With room for the result, so that the string alone decides.
    fn ask_with_room(&mut self, conversion: CodeConversion, string: Vec<u8>) {
        let spare = self.random.pick(&SPARE_ROOMS);
        self.ask(conversion.op(), conversion.result_digits() + spare, string);
    }

    fn examples(&mut self) {
        for (code, line) in COLLECTION_EXAMPLES {
            for room in ROOMS {
                self.ask(Op::CodeToLine, room, code.to_vec());
                self.ask(Op::CodeLineToCode, room, line.to_vec());
            }
        }
    }

    fn accepted_in_all_rooms(&mut self, code: &[u8]) {
        for (conversion, string) in both_strings(code) {
            let needed = conversion.result_digits();
            for room in [0, needed - 1, needed, needed + 1] {
                self.ask(conversion.op(), room, string.clone());
            }
        }
    }

    /// The result of one request is the string of the next. It is taken from
    /// what is expected: the comparison holds only if the program gave just that.
    fn round_trip(&mut self, code: &[u8]) {
        let mut string = code.to_vec();
        for conversion in CODE_CONVERSIONS {
            let memory = untouched(conversion.result_digits());
            let answer = Paper.code_converted(conversion, &string, memory);
            self.ask_with_room(conversion, string);
            string = answer.memory.unwrap_or_default();
        }
    }

    /// Every other digit at every place, and a byte that is none.
    fn changed_places(&mut self, conversion: CodeConversion, string: &[u8]) {
        for at in 0..string.len() {
            let non_digit = self.random.pick(NON_DIGITS);
            let others = DIGITS.iter().chain([&non_digit]);
            for byte in others.filter(|byte| **byte != string[at]) {
                let mut changed = string.to_vec();
                changed[at] = *byte;
                self.ask_with_room(conversion, changed);
            }
        }
    }

    /// Neighbours swapped, a digit lost, a digit doubled, and the length kept.
    fn moved_digits(&mut self, conversion: CodeConversion, string: &[u8]) {
        for at in 0..string.len() {
            let mut lost = string.to_vec();
            lost.remove(at);
            let mut doubled = string.to_vec();
            doubled.insert(at, string[at]);
            let mut lost_and_filled = lost.clone();
            lost_and_filled.push(b'0');
            let mut swapped = string.to_vec();
            swapped.swap(at, (at + 1) % string.len());
            for moved in [lost, doubled, lost_and_filled, swapped] {
                self.ask_with_room(conversion, moved);
            }
        }
    }

    /// Each remainder of modulus 11, with every digit in the check's place.
    fn every_remainder(&mut self) {
        for identifier in IDENTIFIERS {
            if Modulus::of_identifier(identifier) != Some(Modulus::Eleven) {
                continue;
            }
            for remainder in 0..REMAINDERS {
                let code = code_with_remainder(self.random, identifier, remainder);
                for code in with_every_check(&code) {
                    for (conversion, string) in both_strings(&code) {
                        self.ask_with_room(conversion, string);
                    }
                }
            }
        }
    }

    /// Where the identifier is none, the blocks have any checks.
    fn codes_and_lines_of_note(&mut self) {
        for _ in 0..ROUNDS_OF_NOTE {
            for code in codes_of_note(self.random) {
                for (conversion, string) in both_strings(&code) {
                    self.ask_with_room(conversion, string);
                }
            }
        }
    }

    /// Codes and lines given to the calls for boletos, those of boletos to the
    /// calls for codes, and each to the other call of its own family.
    fn of_the_other_family(&mut self, codes: &[Vec<u8>]) {
        let ops = [
            Op::BarcodeToLine,
            Op::LineToBarcode,
            Op::CodeToLine,
            Op::CodeLineToCode,
        ];
        let mut strings = vec![PAPER_BARCODE.to_vec(), PAPER_LINE.to_vec()];
        for code in codes.iter().take(COLLECTION_EXAMPLES.len()) {
            strings.extend(both_strings(code).map(|(_, string)| string));
        }
        for string in strings {
            for op in ops {
                for room in [44, 47, 48] {
                    self.ask(op, room, string.clone());
                }
            }
        }
    }

    fn lengths(&mut self) {
        let code = COLLECTION_EXAMPLES[0].0;
        for conversion in CODE_CONVERSIONS {
            for length in 0..=LONGEST_SHORT_STRING {
                for (_, mut string) in both_strings(code) {
                    string.resize(length, b'0');
                    self.ask_with_room(conversion, string);
                }
                self.ask_with_room(conversion, vec![b'x'; length]);
                self.ask(conversion.op(), 0, vec![b'8'; length]);
            }
        }
    }

    fn large_requests(&mut self) {
        for (conversion, string) in both_strings(COLLECTION_EXAMPLES[0].0) {
            for length in LARGE_LENGTHS {
                let mut long = string.clone();
                long.resize(length, b'0');
                self.ask_with_room(conversion, long);
            }
            for room in LARGE_ROOMS {
                self.ask(conversion.op(), room, string.clone());
            }
        }
    }

    fn unlikely_strings(&mut self) {
        for conversion in CODE_CONVERSIONS {
            let length = conversion.given_digits();
            for byte in DIGITS.iter().chain(NON_DIGITS) {
                self.ask_with_room(conversion, vec![*byte; length]);
            }
            for _ in 0..RANDOM_STRINGS {
                let bytes = (0..length).map(|_| self.random.byte()).collect();
                self.ask_with_room(conversion, bytes);
                let mut numerals = digits(self.random, length);
                self.ask_with_room(conversion, numerals.clone());
                numerals[PRODUCT_PLACE - 1] = PRODUCT;
                self.ask_with_room(conversion, numerals.clone());
                numerals[IDENTIFIER_PLACE - 1] = self.random.pick(&IDENTIFIERS);
                self.ask_with_room(conversion, numerals);
            }
        }
    }

    /// Every combination of flaws, so that the order of refusals is tested.
    fn several_flaws(&mut self) {
        for conversion in CODE_CONVERSIONS {
            let repeats = match conversion {
                CodeConversion::CodeToLine => REPEATS_PER_CODE_FLAWS,
                CodeConversion::LineToCode => REPEATS_PER_LINE_FLAWS,
            };
            for flaws in all_flaw_sets(conversion) {
                for _ in 0..repeats {
                    let string = string_with(self.random, conversion, flaws);
                    let room = room_with(self.random, conversion, flaws);
                    self.ask(conversion.op(), room, string);
                }
            }
        }
    }

    /// Changes at random places of accepted strings, with random rooms.
    fn several_changes(&mut self, codes: &[Vec<u8>]) {
        for round in 0..STRINGS_WITH_SEVERAL_CHANGES {
            let identifier = self.random.pick(&IDENTIFIERS);
            let fresh = code_with(self.random, identifier);
            let code = codes.get(round).unwrap_or(&fresh);
            for (conversion, mut string) in both_strings(code) {
                for _ in 0..self.random.between(2, MOST_CHANGES) {
                    let at = self.random.below(string.len());
                    let rarely = self.random.below(NON_DIGIT_ONCE_IN) == 0;
                    let choices = if rarely { NON_DIGITS } else { DIGITS };
                    string[at] = self.random.pick(choices);
                }
                let room = self.random.pick(&ROOMS);
                self.ask(conversion.op(), room, string);
            }
        }
    }
}
