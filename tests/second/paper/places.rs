//! The places of a line that rules over several fields or lines speak of, each
//! named once.

use std::ops::RangeInclusive;

use super::record_kinds::RecordKind;
use super::records::number_of;

/// Places counted from 1, both ends included.
#[derive(Clone, Copy, PartialEq, Eq)]
pub struct Part {
    pub first: usize,
    pub last: usize,
}

pub const fn part(first: usize, last: usize) -> Part {
    Part { first, last }
}

impl Part {
    pub fn places(self) -> RangeInclusive<usize> {
        self.first..=self.last
    }

    pub fn width(self) -> usize {
        self.last - self.first + 1
    }

    pub fn of(self, line: &[u8]) -> &[u8] {
        &line[self.first - 1..self.last]
    }

    pub fn number(self, line: &[u8]) -> u64 {
        number_of(self.of(line))
    }

    pub fn put(self, line: &mut [u8], content: &[u8]) {
        line[self.first - 1..self.last].copy_from_slice(content);
    }

    /// A number with more digits than the part loses the leading ones.
    pub fn put_number(self, line: &mut [u8], number: u128) {
        let digits = format!("{number:0width$}", width = self.width());
        let surplus = digits.len() - self.width();
        self.put(line, &digits.as_bytes()[surplus..]);
    }
}

pub const BANK: Part = part(1, 3);
pub const BATCH_NUMBER: Part = part(4, 7);
pub const TYPE: Part = part(8, 8);
pub const DETAIL_NUMBER: Part = part(9, 13);
pub const SEGMENT: Part = part(14, 14);

pub const DIRECTION: Part = part(143, 143);
pub const SERVICE: Part = part(10, 11);
pub const SERVICE_AND_FORM: Part = part(10, 13);

pub const MOVEMENT: Part = part(15, 15);
pub const INSTRUCTION: Part = part(16, 17);
pub const AMOUNT_OF_A: Part = part(120, 134);
pub const AMOUNT_OF_J: Part = part(153, 167);
pub const AMOUNT_OF_O: Part = part(108, 122);
/// The numbers of an A that banks leave blank until the payment is made.
pub const NOT_THERE_YET: [Part; 2] = [part(155, 162), part(163, 177)];

pub const BARCODE: Part = part(18, 61);
/// Where a J52 has "52", and a J the first two digits of its barcode.
pub const J52_MARK: Part = part(18, 19);
pub const BARCODE_CHECK: Part = part(22, 22);
pub const FACTOR: Part = part(23, 26);
pub const BARCODE_CENTS: Part = part(27, 36);
pub const DUE: Part = part(92, 99);
pub const NOMINAL: Part = part(100, 114);
pub const DISCOUNT: Part = part(115, 129);
pub const FINE: Part = part(130, 144);

/// The code of an O stands where a J has its barcode.
pub const CODE: Part = part(18, 61);
pub const CODE_PRODUCT: Part = part(18, 18);
pub const CODE_IDENTIFIER: Part = part(20, 20);
pub const CODE_CHECK: Part = part(21, 21);

pub const BATCH_RECORDS: Part = part(18, 23);
pub const BATCH_SUM: Part = part(24, 41);
pub const FILE_BATCHES: Part = part(18, 23);
pub const FILE_RECORDS: Part = part(24, 29);

/// Only the first record of a payment has an amount.
pub fn amount(kind: RecordKind) -> Option<Part> {
    match kind {
        RecordKind::A => Some(AMOUNT_OF_A),
        RecordKind::J => Some(AMOUNT_OF_J),
        RecordKind::O => Some(AMOUNT_OF_O),
        _ => None,
    }
}
