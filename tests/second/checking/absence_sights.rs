//! What can be seen of numbers that are not given, and of what is no number, in
//! one record of a run.

use crate::asking::values::NoNumber;
use crate::checking::judged_records::kind_of;
use crate::damage::absence_flaws::always_given;
use crate::paper::layout_table::{self as table, Entry};
use crate::paper::numbers::NON_DIGIT;
use crate::paper::payments::payments_of;
use crate::paper::places::{Part, NOT_THERE_YET};
use crate::paper::record_kinds::RecordKind;
use crate::paper::record_rules::Refusal;

/// How a content is neither digits nor blanks.
#[derive(Clone, Copy, PartialEq, Eq, PartialOrd, Ord, Debug)]
pub enum Mix {
    BlankAmongDigits,
    DigitAmongBlanks,
    OtherAmongDigits,
    OtherAmongBlanks,
    BlanksThenDigits,
    DigitsThenBlanks,
}

/// Those of which one byte alone is the cause.
pub const ONE_BYTE: [Mix; 4] = [
    Mix::BlankAmongDigits,
    Mix::DigitAmongBlanks,
    Mix::OtherAmongDigits,
    Mix::OtherAmongBlanks,
];
pub const TWO_HALVES: [Mix; 2] = [Mix::BlanksThenDigits, Mix::DigitsThenBlanks];

/// Something seen in a request. Ops, directions and kinds of records are named
/// by their codes, numbers of records by their index.
#[derive(Clone, Copy, PartialEq, Eq, PartialOrd, Ord, Debug)]
pub enum Sight {
    /// An A refused with 8 for one of the two; the place is that of the one
    /// byte, or the first of the second half.
    Mixed {
        op: char,
        direction: char,
        mix: Mix,
        place: usize,
    },
    /// A field of digits that is always given, refused for its blanks.
    Blank { op: char, kind: char, place: usize },
    /// An A refused with 8 for a number that does not fit.
    TooWide {
        op: char,
        direction: char,
        place: usize,
        number: u64,
    },
    /// A request that is malformed for what it sends for a number.
    NoNumber {
        op: char,
        kind: char,
        index: usize,
        reason: NoNumber,
    },
}

/// Of a record that was read and refused.
pub struct RefusedRecord<'a> {
    pub op: char,
    pub direction: char,
    pub kind: RecordKind,
    pub bytes: &'a [u8],
    pub refusal: Refusal,
}

impl RefusedRecord<'_> {
    pub fn sights(&self) -> Vec<Sight> {
        let mut sights = self.blanks();
        let (number, place) = self.refusal;
        let mut parts = NOT_THERE_YET.into_iter();
        let named = parts.find(|part| part.first == place);
        if let (RecordKind::A, NON_DIGIT, Some(part)) = (self.kind, number, named) {
            sights.extend(self.mixes(part));
        }
        sights
    }

    /// A blank form is named at the service.
    fn blanks(&self) -> Vec<Sight> {
        let service = table::fields(self.kind).into_iter();
        let mut service = service.filter(|field| field.entry == Entry::Service);
        let service = service.next();
        let fields = always_given(self.kind).into_iter();
        let blank = fields.filter(|field| {
            let named = match field.entry {
                Entry::Form => service.map(|service| service.first),
                _ => Some(field.first),
            };
            named == Some(self.refusal.1) && field.of(self.bytes).iter().all(|byte| is_blank(*byte))
        });
        let sights = blank.map(|field| Sight::Blank {
            op: self.op,
            kind: char::from(self.kind.code()),
            place: field.first,
        });
        sights.collect()
    }

    fn mixes(&self, part: Part) -> Vec<Sight> {
        let content = part.of(self.bytes);
        let mixes = one_byte(content).into_iter().chain(two_halves(content));
        let sights = mixes.map(|(mix, before)| Sight::Mixed {
            op: self.op,
            direction: self.direction,
            mix,
            place: part.first + before,
        });
        sights.collect()
    }
}

fn is_blank(byte: u8) -> bool {
    byte == b' '
}

fn is_digit(byte: u8) -> bool {
    byte.is_ascii_digit()
}

fn is_other(byte: u8) -> bool {
    !is_blank(byte) && !is_digit(byte)
}

/// One byte of another sort than all the rest, and how many stand before it.
fn one_byte(content: &[u8]) -> Option<(Mix, usize)> {
    let sorts: [(fn(u8) -> bool, fn(u8) -> bool); 4] = [
        (is_blank, is_digit),
        (is_digit, is_blank),
        (is_other, is_digit),
        (is_other, is_blank),
    ];
    ONE_BYTE
        .into_iter()
        .zip(sorts)
        .find_map(|(mix, (one, rest))| {
            let before = content.iter().position(|byte| one(*byte))?;
            let (left, right) = (&content[..before], &content[before + 1..]);
            let alone = left.iter().chain(right).all(|byte| rest(*byte));
            alone.then_some((mix, before))
        })
}

/// Blanks and digits that meet once, and how many bytes stand before that.
fn two_halves(content: &[u8]) -> Option<(Mix, usize)> {
    let sorts: [(fn(u8) -> bool, fn(u8) -> bool); 2] = [(is_blank, is_digit), (is_digit, is_blank)];
    TWO_HALVES
        .into_iter()
        .zip(sorts)
        .find_map(|(mix, (left, right))| {
            let before = content.iter().take_while(|byte| left(**byte)).count();
            let met = (1..content.len()).contains(&before);
            let halves = met && content[before..].iter().all(|byte| right(*byte));
            halves.then_some((mix, before))
        })
}

/// What a line of a file is read as behind these lines.
pub fn kind_behind(before: &[&[u8]], line: &[u8]) -> Option<RecordKind> {
    kind_of(line, || {
        let payments = payments_of(before.iter().copied());
        payments.last().is_some_and(|last| last.records.len() == 1)
    })
}
