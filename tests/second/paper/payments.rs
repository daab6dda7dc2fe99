//! The payments of an accepted file, found by its lines alone. What the totals
//! are can be said of them without the machine that runs along.

use super::places::{self, Part, INSTRUCTION, SEGMENT, TYPE};
use super::record_kinds::RecordKind;
use super::totals::{Movement, Totals};

pub struct Payment<'a> {
    /// The ordinal of its batch, from 1.
    pub batch: usize,
    /// A, J or O.
    pub kind: RecordKind,
    /// A, B or J, J52 or O, and perhaps a Z.
    pub records: Vec<&'a [u8]>,
}

impl Payment<'_> {
    pub fn movement(&self) -> Movement {
        Movement::of(self.records[0])
    }

    pub fn instruction(&self) -> &[u8] {
        INSTRUCTION.of(self.records[0])
    }

    pub fn number(&self, part: Part) -> u64 {
        part.number(self.records[0])
    }

    pub fn cents(&self) -> u64 {
        places::amount(self.kind).map_or(0, |amount| self.number(amount))
    }

    pub fn has_z(&self) -> bool {
        let last = self.records.last();
        last.is_some_and(|record| SEGMENT.of(record) == b"Z")
    }
}

/// Whole payments, and the one that the lines end in.
pub fn payments_of<'a>(lines: impl IntoIterator<Item = &'a [u8]>) -> Vec<Payment<'a>> {
    let mut payments: Vec<Payment> = Vec::new();
    let mut batch = 0;
    for line in lines {
        match TYPE.of(line) {
            b"1" => batch += 1,
            b"3" => match (first_kind(line), payments.last_mut()) {
                (Some(kind), last) if !is_second(kind, last.as_deref()) => {
                    let records = vec![line];
                    payments.push(Payment {
                        batch,
                        kind,
                        records,
                    });
                }
                (_, Some(last)) => last.records.push(line),
                (_, None) => {}
            },
            _ => {}
        }
    }
    payments
}

/// The kind of payment that a record with this segment may begin.
fn first_kind(line: &[u8]) -> Option<RecordKind> {
    match SEGMENT.of(line) {
        b"A" => Some(RecordKind::A),
        b"J" => Some(RecordKind::J),
        b"O" => Some(RecordKind::O),
        _ => None,
    }
}

/// A J52 has the segment of a J and is known by its place.
fn is_second(kind: RecordKind, last: Option<&Payment>) -> bool {
    let begun = last.is_some_and(|last| last.kind == RecordKind::J && last.records.len() == 1);
    kind == RecordKind::J && begun
}

/// Each number a sum over the payments of its own.
pub fn totals_of(payments: &[Payment]) -> Totals {
    let mut totals = Totals::default();
    for payment in payments {
        totals.add_payment(payment.movement(), payment.cents());
    }
    totals
}
