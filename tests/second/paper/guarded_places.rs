//! The guarded places of document 01, in the words and the order of its section
//! 'Guarded places': one byte of an accepted file changed at such a place is
//! refused. Everything else carries no claim.

use std::ops::RangeInclusive;

use super::digit_strings::{LINE_CHECK_PLACE, LINE_DIGITS};
use super::layout_table::{self as table, Entry, Field};
use super::lines::LINE_BYTES;
use super::places::{part, Part};
use super::record_kinds::{Direction, RecordKind};

const LINE_ENDS: Part = part(241, 242);
const OF_EVERY_LINE: Part = part(1, 8);
const NUMBER_OF_DETAILS: Part = part(9, 13);
const SEGMENT_OF_DETAILS: Part = part(14, 14);
const AMOUNT_OF_A: Part = part(120, 134);
const OF_J: [Part; 2] = [part(100, 144), part(153, 167)];
const AMOUNT_OF_O: Part = part(108, 122);
const OF_BATCH_TRAILERS: Part = part(18, 41);
const OF_THE_FILE_TRAILER: Part = part(18, 29);
const ALL_OF_THE_BARCODE: Part = part(18, 61);
const CHECK_OF_THE_BARCODE: Part = part(22, 22);
const CURRENCY_AND_CHECK: Part = part(21, 22);

/// This check stands for three remainders, so it guards fewer places.
pub const WEAK_CHECK: u8 = b'1';

/// In modulus 11 this check of a collection code stands for two remainders. The
/// code of an O is not among the guarded places: what is claimed of it is claimed
/// of digit strings.
pub const WEAK_CODE_CHECK: u8 = b'0';

/// A line of an accepted file, and what its guarded places depend on.
#[derive(Clone, Copy)]
pub struct LineOfFile<'a> {
    pub kind: RecordKind,
    pub bytes: &'a [u8],
    pub direction: Direction,
    /// What the line before it is.
    pub before: Option<RecordKind>,
}

impl LineOfFile<'_> {
    /// In a return an O without cents might be a Z, and the Z behind an O an O, and
    /// every total be right still (request 5 of document 02).
    fn has_guarded_segment(&self) -> bool {
        let behind_o = self.kind == RecordKind::Z && self.before == Some(RecordKind::O);
        let of_o = self.kind == RecordKind::O || behind_o;
        !(of_o && self.direction == Direction::Return)
    }
}

/// Each place once, from left to right.
pub fn guarded_places(line: LineOfFile) -> Vec<usize> {
    let parts = guarded_parts(line);
    let is_guarded = |place: &usize| parts.iter().any(|part| part.places().contains(place));
    (1..=LINE_BYTES).filter(is_guarded).collect()
}

/// Parts may overlap: the type, say, is of every line and is exact content.
fn guarded_parts(line: LineOfFile) -> Vec<Part> {
    let mut parts = vec![LINE_ENDS, OF_EVERY_LINE];
    if line.kind.segment().is_some() {
        parts.push(NUMBER_OF_DETAILS);
    }
    let fields = table::fields(line.kind).into_iter();
    let fixed = fields.filter(|field| is_fixed(*field, line.direction));
    parts.extend(fixed.map(|field| part(field.first, field.last)));
    if !line.has_guarded_segment() {
        parts.retain(|part| *part != SEGMENT_OF_DETAILS);
    }
    match line.kind {
        RecordKind::A => parts.push(AMOUNT_OF_A),
        RecordKind::J => {
            parts.extend(OF_J);
            parts.push(guarded_part_of_barcode(line.bytes));
        }
        RecordKind::O => parts.push(AMOUNT_OF_O),
        RecordKind::BatchTrailer => parts.push(OF_BATCH_TRAILERS),
        RecordKind::FileTrailer => parts.push(OF_THE_FILE_TRAILER),
        _ => {}
    }
    parts
}

/// K, zeros, exact content, or O in a remittance.
fn is_fixed(field: Field, direction: Direction) -> bool {
    match field.entry {
        Entry::Blank | Entry::Exact(_) => true,
        Entry::BlankInRemittance => direction == Direction::Remittance,
        _ => false,
    }
}

fn guarded_part_of_barcode(line: &[u8]) -> Part {
    if CHECK_OF_THE_BARCODE.of(line) == [WEAK_CHECK] {
        CURRENCY_AND_CHECK
    } else {
        ALL_OF_THE_BARCODE
    }
}

/// The same for a 47-digit line: its field checks guard 1 to 32, and only its
/// general check, at 33, guards what stands behind it.
pub fn guarded_digits(line: &[u8]) -> RangeInclusive<usize> {
    if line[LINE_CHECK_PLACE - 1] == WEAK_CHECK {
        1..=LINE_CHECK_PLACE
    } else {
        1..=LINE_DIGITS
    }
}
