//! How one field of a good record is spoiled, and the contents at the edge of
//! what is right that the cases try.

use crate::making::random::Random;
use crate::paper::layout_table::{self as table, Entry, Field};
use crate::paper::record_kinds::{Direction, Subject};
use crate::paper::record_rules::all_blank;

/// Both ends of what is printable and of the digits, with their neighbours.
pub const BYTES_TO_TRY: &[u8] = b" !/09:A~\x1F\x7F";
pub const UNPRINTABLE: &[u8] = b"\x00\n\r\x1F\x7F\x80\xFF";
const PRINTABLE_NON_DIGITS: &[u8] = b" /:A-~";
const PRINTABLE_NON_BLANKS: &[u8] = b"0195/:A-~";
/// The neighbours of digits, capitals and small letters, and some of the last.
const NEITHER_DIGITS_NOR_CAPITALS: &[u8] = b" /:@[`az{-~";
/// What a field of one place may hold or be mistaken to hold.
pub const CODES: &[u8] = b"0123456789ABCJOZ abjoz";

/// DDMMAAAA: month ends, leap days, the first and the last year, and no dates.
pub const DATES: &str = "\
    01011997 31121996 01011996 29021996 28021997 29021997 31122199 01012199 \
    01012200 31122200 28022200 29022000 29022024 29022023 29022025 29022096 \
    29022100 28022100 01032100 29022104 29022196 29022199 30022024 31012020 \
    32012020 31032020 30042020 31042020 31052020 31062020 31072020 31082020 \
    31092020 31102020 31112020 31122020 00012020 01002020 01132020 00000000 \
    99999999 12312020 20200131 01010997 01011000 01019999 15061998 10101097";
pub const DATES_WITH_NON_DIGITS: [&str; 7] = [
    "        ", " 1012020", "0 012020", "0101202A", "01/12020", ":1012020", "0101 020",
];
/// HHMMSS.
pub const TIMES: &str = "\
    000000 000001 235959 240000 236000 235960 230000 235900 125960 \
    126059 006000 000060 999999 195959 200000 245959 300000 091011";
pub const TIMES_WITH_NON_DIGITS: [&str; 5] = ["      ", " 91011", "09101 ", "/91011", "2359:9"];

const NO_DATES: [&[u8]; 6] = [
    b"00012020",
    b"29022023",
    b"31042020",
    b"01132020",
    b"31121996",
    b"01012200",
];
const NO_TIMES: [&[u8]; 3] = [b"240000", b"236000", b"235960"];
const NO_PAIR_HALVES: [&[u8]; 4] = [b"99", b"00", b"0A", b" 1"];

/// Blank texts, texts that begin with a blank, and texts that do not.
pub fn texts_with_blanks(width: usize) -> Vec<Vec<u8>> {
    let blank = vec![b' '; width];
    let (mut first, mut second, mut last) = (blank.clone(), blank.clone(), blank.clone());
    first[0] = b'x';
    second[1] = b'x';
    last[width - 1] = b'x';
    let mut all_but_first = vec![b'x'; width];
    all_but_first[0] = b' ';
    let mut all_but_last = vec![b'x'; width];
    all_but_last[width - 1] = b' ';
    vec![blank, first, second, last, all_but_first, all_but_last]
}

/// A field with any printable content cannot be spoiled but by a wrong byte.
pub fn can_be_spoiled(field: Field, subject: Subject) -> bool {
    match field.entry {
        Entry::Free => false,
        Entry::BlankInRemittance => subject.direction == Direction::Remittance,
        _ => true,
    }
}

/// Puts a printable fault into a field that can be spoiled.
pub fn spoil(random: &mut Random, field: Field, record: &mut [u8]) {
    let at = random.between(field.first, field.last) - 1;
    match field.entry {
        Entry::Date if random.coin() => field.put(record, random.pick(&NO_DATES)),
        Entry::Time if random.coin() => field.put(record, random.pick(&NO_TIMES)),
        Entry::Service | Entry::Form => field.put(record, random.pick(&NO_PAIR_HALVES)),
        Entry::OneOf(domain) => record[at] = other_than(random, domain),
        Entry::Text => {
            let later = random.between(field.first + 1, field.last) - 1;
            field.put(record, &vec![b' '; field.width()]);
            record[later] = b'x';
        }
        Entry::Exact(_) | Entry::Blank | Entry::BlankInRemittance => {
            record[at] = other_than(random, &[record[at]]);
        }
        Entry::OptionalNumber if all_blank(field.of(record)) => {
            record[at] = random.pick(PRINTABLE_NON_BLANKS);
        }
        Entry::Identifier => record[at] = random.pick(NEITHER_DIGITS_NOR_CAPITALS),
        _ => record[at] = random.pick(PRINTABLE_NON_DIGITS),
    }
}

fn other_than(random: &mut Random, refused: &[u8]) -> u8 {
    let others = (b' '..=b'~').filter(|byte| !refused.contains(byte));
    random.pick(&others.collect::<Vec<u8>>())
}

/// Any byte, but those that fields tell apart more often than the rest.
pub fn likely_byte(random: &mut Random) -> u8 {
    match random.below(4) {
        0 => random.byte(),
        1 => random.digit(),
        2 => random.between(32, 126) as u8,
        _ => random.pick(BYTES_TO_TRY),
    }
}

pub fn fields_to_spoil(subject: Subject) -> Vec<Field> {
    let mut fields = table::fields(subject.kind);
    fields.retain(|field| can_be_spoiled(*field, subject));
    fields
}

pub fn known_contents_of(field: Field) -> Vec<Vec<u8>> {
    match field.entry {
        Entry::Date => as_bytes(DATES.split(' ').chain(DATES_WITH_NON_DIGITS)),
        Entry::Time => as_bytes(TIMES.split(' ').chain(TIMES_WITH_NON_DIGITS)),
        Entry::Text => texts_with_blanks(field.width()),
        Entry::OneOf(_) | Entry::Exact(_) if field.width() == 1 => {
            CODES.iter().map(|code| vec![*code]).collect()
        }
        _ => Vec::new(),
    }
}

fn as_bytes<'a>(contents: impl Iterator<Item = &'a str>) -> Vec<Vec<u8>> {
    contents
        .map(|content| content.as_bytes().to_vec())
        .collect()
}
