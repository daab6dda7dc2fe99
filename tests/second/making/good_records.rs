//! Good records made at random: every field is filled as the table wants it,
//! with ordinary contents as often as with those at the edge of what it allows.

use crate::making::good_codes::any_code;
use crate::making::random::Random;
use crate::making::registrations;
use crate::paper::calendar::{Calendar, FIRST_YEAR, LAST_YEAR, MONTHS};
use crate::paper::digit_strings::{CURRENCY, CURRENCY_PLACE};
use crate::paper::file_state::{BatchKind, BATCH_KINDS};
use crate::paper::layout_table::{
    self as table, Entry, Field, BOLETO_FORMS, COLLECTION_FORM, COLLECTION_SERVICE, CREDIT_FORMS,
    CREDIT_SERVICE,
};
use crate::paper::lines::RECORD_BYTES;
use crate::paper::record_kinds::{Direction, Subject};
use crate::paper::record_rules::all_blank;
use crate::paper::registration::type_before;
use crate::paper::Paper;

const BLANK: u8 = b' ';
/// The bytes of a text may be any of these but, at its first place, the blank.
const FIRST_AFTER_BLANK: usize = 33;
const LAST_PRINTABLE: usize = 126;
/// A barcode of this bank looks like a J52 record at places 18 and 19.
const BARCODE_LIKE_J52: &[u8] = b"52";

const ZEROS_ONCE_IN: usize = 5;
const NINES_ONCE_IN: usize = 10;
const BLANKS_ONCE_IN: usize = 4;
const NOT_GIVEN_ONCE_IN: usize = 2;
const WORDS: [&str; 8] = [
    "PAGADORA BRASIL LTDA",
    "JOSE DA SILVA",
    "MARIA S. & FILHOS",
    "RUA DAS FLORES, 120",
    "SAO PAULO",
    "000123-4/A",
    "~",
    "NF 4711",
];
const YEARS: [u32; 8] = [1997, 2000, 2017, 2024, 2025, 2100, 2196, 2199];

pub fn good_record(random: &mut Random, subject: Subject) -> Vec<u8> {
    let (service, form) = good_pair(random, subject.direction);
    let mut record = vec![BLANK; RECORD_BYTES];
    for field in table::fields(subject.kind) {
        let content = match field.entry {
            Entry::Service => service.to_vec(),
            Entry::Form => form.to_vec(),
            // The type stands to the left and is there by now.
            Entry::Identifier => {
                let code = type_before(field, &record);
                registrations::content_of_a_record(random, code, field.width())
            }
            _ => good_content(random, field, subject.direction),
        };
        field.put(&mut record, &content);
    }
    record
}

fn good_pair(random: &mut Random, direction: Direction) -> (&'static [u8], &'static [u8]) {
    match random.pick(&BATCH_KINDS) {
        BatchKind::Credit => (CREDIT_SERVICE, random.pick(&CREDIT_FORMS)),
        BatchKind::Boleto => (direction.boleto_service(), random.pick(&BOLETO_FORMS)),
        BatchKind::Collection => (COLLECTION_SERVICE, COLLECTION_FORM),
    }
}

fn good_content(random: &mut Random, field: Field, direction: Direction) -> Vec<u8> {
    let width = field.width();
    let reserved = direction == Direction::Remittance;
    match field.entry {
        Entry::OptionalNumber if random.below(NOT_GIVEN_ONCE_IN) == 0 => vec![BLANK; width],
        Entry::Number | Entry::OptionalNumber => digits(random, width),
        Entry::Barcode => barcode(random, width),
        Entry::Code => code(random, width),
        Entry::Text => text(random, width),
        Entry::Date => date(random).into_bytes(),
        Entry::Time => time(random).into_bytes(),
        Entry::OneOf(domain) => vec![random.pick(domain)],
        Entry::Exact(content) => content.to_vec(),
        Entry::BlankInRemittance if !reserved => free(random, width),
        Entry::Free => free(random, width),
        Entry::Blank | Entry::BlankInRemittance => vec![BLANK; width],
        Entry::Service | Entry::Form | Entry::Identifier => Vec::new(),
    }
}

fn digits(random: &mut Random, width: usize) -> Vec<u8> {
    if random.below(ZEROS_ONCE_IN) == 0 {
        return vec![b'0'; width];
    }
    if random.below(NINES_ONCE_IN) == 0 {
        return vec![b'9'; width];
    }
    (0..width).map(|_| random.digit()).collect()
}

fn barcode(random: &mut Random, width: usize) -> Vec<u8> {
    let mut barcode = digits(random, width);
    if random.coin() {
        barcode[..BARCODE_LIKE_J52.len()].copy_from_slice(BARCODE_LIKE_J52);
    }
    barcode[CURRENCY_PLACE - 1] = CURRENCY;
    barcode
}

/// Of a record alone nobody asks whether the code is right.
fn code(random: &mut Random, width: usize) -> Vec<u8> {
    if random.coin() {
        return any_code(random);
    }
    digits(random, width)
}

fn text(random: &mut Random, width: usize) -> Vec<u8> {
    let mut text = free(random, width);
    if text[0] == BLANK && !all_blank(&text) {
        text[0] = random.between(FIRST_AFTER_BLANK, LAST_PRINTABLE) as u8;
    }
    text
}

/// Blanks, words, or anything printable over the whole width.
fn free(random: &mut Random, width: usize) -> Vec<u8> {
    if random.below(BLANKS_ONCE_IN) == 0 {
        return vec![BLANK; width];
    }
    if random.coin() {
        let mut words = random.pick(&WORDS).as_bytes().to_vec();
        words.resize(width, BLANK);
        return words;
    }
    let first = usize::from(BLANK);
    (0..width)
        .map(|_| random.between(first, LAST_PRINTABLE) as u8)
        .collect()
}

fn date(random: &mut Random) -> String {
    let year = if random.coin() {
        random.pick(&YEARS)
    } else {
        random.between(FIRST_YEAR as usize, LAST_YEAR as usize) as u32
    };
    let month = random.between(1, MONTHS as usize) as u32;
    let last_day = Paper.days_in(month, year);
    let day = random.pick(&[1, 2, 15, last_day]);
    format!("{day:02}{month:02}{year:04}")
}

fn time(random: &mut Random) -> String {
    let hour = random.between(0, 23);
    let minute = random.pick(&[0, 30, 59]);
    let second = random.pick(&[0, 1, 59]);
    format!("{hour:02}{minute:02}{second:02}")
}
