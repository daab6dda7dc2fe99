//! Contents of a number that may be not given which are neither digits nor
//! blanks, and other fields left blank.

use crate::damage::record_flaws::UNPRINTABLE;
use crate::making::random::Random;
use crate::paper::layout_table::{self as table, Entry, Field};
use crate::paper::record_kinds::RecordKind;

const BLANK: u8 = b' ';
/// The neighbours of the digits and of the blank, and what might stand for
/// nothing.
const PRINTABLE_OTHERS: &[u8] = b"!/:A-_*.+~";
const WHOLLY_OF: &[u8] = b"-_*A/";

/// Around the first that is too wide for the one field or the other, and at the
/// end of 32 and of 64 bits.
pub const LARGE_NUMBERS: [u64; 10] = [
    99_999_999,
    100_000_000,
    100_000_001,
    1 << 32,
    999_999_999_999_999,
    1_000_000_000_000_000,
    1_000_000_000_000_001,
    1 << 63,
    u64::MAX - 1,
    u64::MAX,
];

/// Every sort of mix at every place of a field of this width.
pub fn mixes(random: &mut Random, width: usize) -> Vec<Vec<u8>> {
    let mut contents = Vec::new();
    for at in 0..width {
        for base in [digits(random, width), vec![b'0'; width]] {
            contents.push(with(&base, at, BLANK));
            contents.push(with(&base, at, random.pick(PRINTABLE_OTHERS)));
        }
        for byte in [b'0', random.digit(), random.pick(PRINTABLE_OTHERS)] {
            contents.push(with(&vec![BLANK; width], at, byte));
        }
    }
    for blanks in 1..width {
        let digits = digits(random, width);
        let (left, right) = digits.split_at(blanks);
        contents.push([vec![BLANK; blanks], right.to_vec()].concat());
        contents.push([left.to_vec(), vec![BLANK; width - blanks]].concat());
    }
    contents.extend(both_ends(random, width));
    contents.extend(WHOLLY_OF.iter().map(|byte| vec![*byte; width]));
    contents.extend(unprintable(random, width));
    contents
}

/// Both ends alike, and something else between them.
fn both_ends(random: &mut Random, width: usize) -> [Vec<u8>; 2] {
    let mut blank_ends = digits(random, width);
    let mut digit_ends = vec![BLANK; width];
    for end in [0, width - 1] {
        blank_ends[end] = BLANK;
        digit_ends[end] = random.digit();
    }
    [blank_ends, digit_ends]
}

/// Which are refused as bytes before the field is looked at.
fn unprintable(random: &mut Random, width: usize) -> Vec<Vec<u8>> {
    let bases = [digits(random, width), vec![BLANK; width]];
    let bytes = UNPRINTABLE.iter().chain(b"\t").copied();
    let contents = bytes.flat_map(|byte| {
        let at = random.below(width);
        bases.clone().map(|base| with(&base, at, byte))
    });
    contents.collect()
}

fn digits(random: &mut Random, width: usize) -> Vec<u8> {
    (0..width).map(|_| random.digit()).collect()
}

fn with(base: &[u8], at: usize, byte: u8) -> Vec<u8> {
    let mut content = base.to_vec();
    content[at] = byte;
    content
}

/// The fields of digits that are always given, whatever their digits say.
pub fn always_given(kind: RecordKind) -> Vec<Field> {
    let mut fields = table::fields(kind);
    fields.retain(|field| match field.entry {
        Entry::Number | Entry::Identifier | Entry::Barcode | Entry::Code => true,
        Entry::Date | Entry::Time | Entry::OneOf(_) => true,
        Entry::Service | Entry::Form => true,
        Entry::OptionalNumber | Entry::Text | Entry::Free => false,
        Entry::Blank | Entry::BlankInRemittance | Entry::Exact(_) => false,
    });
    fields
}

pub fn leave_blank(field: Field, record: &mut [u8]) {
    field.put(record, &vec![BLANK; field.width()]);
}
