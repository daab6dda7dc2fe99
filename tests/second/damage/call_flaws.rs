//! What can be wrong with a record that a caller gives to the writer.

use crate::damage::line_flaws::{self, BOLETO_FLAWS};
use crate::damage::record_flaws::{self, can_be_spoiled, UNPRINTABLE};
use crate::damage::value_flaws::numbers_in;
use crate::making::good_calls::{given_record, given_texts, takes_number, takes_text, Frame};
use crate::making::good_files::put_general_check;
use crate::making::random::Random;
use crate::paper::layout_table::{self as table, Entry, Field};
use crate::paper::places::BARCODE_CHECK;
use crate::paper::record_kinds::{RecordKind, Subject};
use crate::paper::records::{first_too_wide, Values};

/// A number of 32 bits looks the same with so much added.
const BEYOND_32_BITS: u64 = 1 << 32;
const NO_DATES: &str = "0 1012020 29022023 31042020 1132020 31121996 1012200 32012020";
const NO_TIMES: &str = "240000 236000 235960 999999 60";
const NO_CODES: &str = "0 2 3 4 9 99";

/// The fields that the caller can fill wrongly with printable bytes.
pub fn fields_to_spoil(subject: Subject) -> Vec<(usize, Field)> {
    let fields = table::fields(subject.kind).into_iter().enumerate();
    let given = fields.filter(|(_, field)| {
        takes_number(subject.kind, *field) || takes_text(*field) && can_be_spoiled(*field, subject)
    });
    given.collect()
}

/// Puts a wrong number or a wrong text into a field that can be spoiled. The
/// currency stands in the barcode, before its check.
pub fn spoil_field(random: &mut Random, (index, field): (usize, Field), values: &mut Values) {
    if field.is_number() {
        let good = values.numbers[index];
        values.numbers[index] = Some(wrong_number(random, field, good));
    } else if field.entry == Entry::Barcode && random.coin() {
        let currency = &mut values.text[BARCODE_CHECK.first - 2];
        *currency = random.other_digit(*currency);
        put_general_check(&mut values.text);
    } else {
        record_flaws::spoil(random, field, &mut values.text);
    }
}

/// Too wide for the field, or what no date, time or domain has.
fn wrong_number(random: &mut Random, field: Field, good: Option<u64>) -> u64 {
    let known = match field.entry {
        Entry::Date => numbers_in(NO_DATES),
        Entry::Time => numbers_in(NO_TIMES),
        Entry::Service | Entry::Form => numbers_in(NO_CODES),
        Entry::OneOf(domain) => (0..10)
            .filter(|digit| !domain.contains(&(b'0' + *digit as u8)))
            .collect(),
        _ => Vec::new(),
    };
    if known.is_empty() || random.coin() {
        return random.pick(&wide_numbers(field, good));
    }
    random.pick(&known)
}

/// Numbers with more digits than the field; those of the given one stand at the
/// end of some, unless it has too many already.
pub fn wide_numbers(field: Field, given: Option<u64>) -> Vec<u64> {
    let too_wide = first_too_wide(field);
    let good = given.unwrap_or(0) % too_wide;
    let numbers = [
        too_wide,
        too_wide + good,
        too_wide * 10 + good,
        good + BEYOND_32_BITS,
        good | 1 << 63,
        u64::MAX,
    ];
    numbers
        .into_iter()
        .filter(|number| *number >= too_wide)
        .collect()
}

/// A byte outside 32-126 where the caller's text counts; nothing where none does.
pub fn spoil_byte(random: &mut Random, kind: RecordKind, values: &mut Values) {
    let fields = given_texts(kind);
    if !fields.is_empty() {
        let field = random.pick(&fields);
        let at = random.between(field.first, field.last) - 1;
        values.text[at] = random.pick(UNPRINTABLE);
    }
}

/// Makes the J of a frame break some of the rules over its fields, one bit of
/// `flaws` for each.
pub fn spoil_boleto(random: &mut Random, frame: &mut Frame, flaws: usize) {
    let has = |flaw: usize| flaws >> flaw & 1 == 1;
    let chosen = (0..BOLETO_FLAWS.len()).filter(|flaw| has(*flaw));
    let chosen: Vec<_> = chosen.map(|flaw| BOLETO_FLAWS[flaw]).collect();
    let mut file = frame.file.clone();
    line_flaws::spoil_line(random, &mut file, frame.spot.line, &chosen);
    *frame.record_mut() = given_record(random, &file.lines[frame.spot.line]);
}
