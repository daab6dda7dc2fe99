//! Mistakes about what may stand in a batch of O records, and where an O may; and
//! about the order in which an O and its code are tested.

use super::collection_faults::CollectionFault;
use super::order::move_before;
use crate::paper::file_state::{Batch, BatchKind, Last, State};
use crate::paper::line_order::Row as LineRow;
use crate::paper::record_kinds::{Direction, RecordKind};
use crate::paper::writer_order::Row as CallRow;

/// The detail with this segment that is taken by mistake.
pub fn taken_here(fault: CollectionFault, batch: &Batch, segment: &[u8]) -> Option<RecordKind> {
    let begins = batch.last != Last::FirstRecord;
    let kind = match (segment, begins) {
        (b"O", true) => RecordKind::O,
        (b"A", true) => RecordKind::A,
        (b"B", false) => RecordKind::B,
        (b"J", true) => RecordKind::J,
        (b"J", false) => RecordKind::J52,
        _ => return None,
    };
    is_taken(fault, batch.kind, kind).then_some(kind)
}

/// Whether a record of this kind is taken in a batch of another.
pub fn is_taken(fault: CollectionFault, batch: BatchKind, kind: RecordKind) -> bool {
    let of = BatchKind::with_record(kind);
    match (fault, batch) {
        (CollectionFault::TakenInCreditBatches, BatchKind::Credit)
        | (CollectionFault::TakenInBoletoBatches, BatchKind::Boleto) => kind == RecordKind::O,
        (CollectionFault::CreditsTakenInItsBatches, BatchKind::Collection) => {
            of == Some(BatchKind::Credit)
        }
        (CollectionFault::BoletosTakenInItsBatches, BatchKind::Collection) => {
            of == Some(BatchKind::Boleto)
        }
        _ => false,
    }
}

/// Whether a Z may stand behind what the batch has by now; nothing where the paper
/// decides.
pub fn may_have_z(fault: CollectionFault, state: &State, batch: &Batch) -> Option<bool> {
    if batch.kind != BatchKind::Collection {
        return None;
    }
    let returned = state.direction == Direction::Return;
    let whole = batch.last == Last::LastRecord;
    match fault {
        CollectionFault::ZTakenInRemittances => Some(whole),
        CollectionFault::SecondZTaken => Some(returned && (whole || batch.last == Last::Z)),
        CollectionFault::ZRefused => Some(false),
        CollectionFault::ZTakenFirst => Some(returned && batch.last != Last::Z),
        _ => None,
    }
}

/// The same for the third or second record of a payment that a caller gives.
pub fn lets_z_pass(fault: CollectionFault, direction: Direction, at: usize) -> Option<bool> {
    let returned = direction == Direction::Return;
    match fault {
        CollectionFault::ZTakenInRemittances => Some(at == 1),
        CollectionFault::SecondZTaken => Some(returned && at > 0),
        CollectionFault::ZRefused => Some(false),
        CollectionFault::ZTakenFirst => Some(returned && at < 2),
        _ => None,
    }
}

/// The order in which the lines of a file are tested.
pub fn disturb_line(rows: &mut Vec<LineRow>, fault: CollectionFault) {
    let is_rule = |row: &LineRow| matches!(row, LineRow::Collection(_));
    let fields: Vec<LineRow> = rows
        .iter()
        .copied()
        .filter(|row| matches!(row, LineRow::Field(_)))
        .collect();
    let other = match fault {
        CollectionFault::TestedBeforeAllFields => fields.first(),
        // The field behind the code.
        CollectionFault::TestedAtItsOwnField => fields.get(3),
        _ => None,
    };
    let rules: Vec<LineRow> = rows.iter().copied().filter(is_rule).collect();
    for rule in &rules {
        if let Some(other) = other {
            move_before(rows, *rule, *other);
        }
    }
    if let [product, identifier, check] = rules.as_slice() {
        match moved_rule(fault) {
            Some((2, 1)) => move_before(rows, *check, *identifier),
            Some((2, 0)) => move_before(rows, *check, *product),
            Some(_) => move_before(rows, *identifier, *product),
            None => {}
        }
    }
}

/// The same for a call to the writer.
pub fn disturb_call(rows: &mut Vec<CallRow>, fault: CollectionFault) {
    let is_rule = |row: &CallRow| matches!(row, CallRow::Collection(..));
    let rules: Vec<CallRow> = rows.iter().copied().filter(is_rule).collect();
    for rule in &rules {
        let of_record =
            |row: &&CallRow| matches!(row, CallRow::Field(..)) && row.record() == rule.record();
        let fields: Vec<CallRow> = rows.iter().filter(of_record).copied().collect();
        let other = match fault {
            CollectionFault::TestedBeforeAllFields => fields.first().copied(),
            CollectionFault::TestedAtItsOwnField => {
                let behind = |row: &&CallRow| matches!(row, CallRow::Field(_, f) if f.first > 18);
                fields.iter().find(behind).copied()
            }
            CollectionFault::TestedBehindAllRecords => Some(CallRow::Total),
            _ => None,
        };
        if let Some(other) = other {
            move_before(rows, *rule, other);
        }
    }
    if fault == CollectionFault::TestedBehindRoom {
        rows.retain(|row| !is_rule(row));
        rows.extend(&rules);
    }
    for rules in rules.chunks(3) {
        if let ([product, identifier, check], Some(moved)) = (rules, moved_rule(fault)) {
            match moved {
                (2, 1) => move_before(rows, *check, *identifier),
                (2, 0) => move_before(rows, *check, *product),
                _ => move_before(rows, *identifier, *product),
            }
        }
    }
}

/// One of the three rules, and the one it is tested before.
fn moved_rule(fault: CollectionFault) -> Option<(usize, usize)> {
    match fault {
        CollectionFault::IdentifierBeforeProduct => Some((1, 0)),
        CollectionFault::CheckBeforeIdentifier => Some((2, 1)),
        CollectionFault::CheckBeforeProduct => Some((2, 0)),
        _ => None,
    }
}
