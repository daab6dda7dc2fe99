//! Mistakes in the order in which a call to the writer is tested, and rows that
//! are not tested.

use super::writer_faults::WriterFault;
use crate::paper::boleto_rules::BoletoRule;
use crate::paper::layout_table::Entry;
use crate::paper::totals::Movement;
use crate::paper::writer_order::Row;
use crate::paper::writer_rules::Attempt;

/// The rows of the paper, in the order that the fault gives them.
pub fn disturb(rows: &mut Vec<Row>, fault: WriterFault, attempt: &Attempt) {
    rows.retain(|row| !is_left_out(*row, fault, attempt));
    rows.sort_by_key(|row| Rank::of(*row).with(fault, *row));
    if fault == WriterFault::WideNumbersFirst {
        move_wide_numbers(rows, attempt);
    }
}

fn is_left_out(row: Row, fault: WriterFault, attempt: &Attempt) -> bool {
    match (fault, row) {
        (WriterFault::FirstKindNotTested, Row::Segment(0))
        | (WriterFault::SecondKindNotTested, Row::Segment(1))
        | (WriterFault::ThirdKindNotTested, Row::Segment(2))
        | (WriterFault::GeneralCheckNotTested, Row::Boleto(_, BoletoRule::GeneralCheck))
        | (WriterFault::DueDateNotTested, Row::Boleto(_, BoletoRule::DueDate))
        | (WriterFault::CentsNotTested, Row::Boleto(_, BoletoRule::Cents))
        | (WriterFault::EquationNotTested, Row::Boleto(_, BoletoRule::Equation)) => true,
        (WriterFault::WithdrawnBoletosNotTested, Row::Boleto(at, _)) => {
            Movement::of(&attempt.drafts[at].bytes) == Movement::Withdrawn
        }
        // A record whose kind is right is not looked into.
        (_, Row::Segment(_)) => false,
        (WriterFault::SecondRecordNotTested, _) => row.record() == Some(1),
        (WriterFault::ThirdRecordNotTested, _) => row.record() == Some(2),
        (WriterFault::ReservedFree, Row::Field(_, field)) => {
            field.entry == Entry::BlankInRemittance
        }
        _ => false,
    }
}

/// A mistake of order that the rows alone do not show: what is too wide is
/// found before anything else of its record.
fn move_wide_numbers(rows: &mut [Row], attempt: &Attempt) {
    let is_wide = |row: Row| match row {
        Row::Field(at, field) => attempt.drafts[at].too_wide.contains(&field),
        _ => false,
    };
    for at in 0..attempt.records() {
        let of_record = |row: &Row| row.record() == Some(at);
        let first = rows.iter().position(of_record).unwrap_or(0);
        let count = rows.iter().filter(|row| of_record(row)).count();
        rows[first..first + count].sort_by_key(|row| !is_wide(*row));
    }
}

/// Where a row stands: first by its part of the call, then by record, within a
/// record by its part of that, and then by place. There is space between the
/// parts, so that a fault can move a row to another place in the order.
#[derive(PartialEq, Eq, PartialOrd, Ord)]
struct Rank {
    part: i32,
    record: i32,
    part_of_record: i32,
    place: i32,
}

const FIRST_OF_ALL: i32 = -10;
const TURN: i32 = 0;
const LIMIT: i32 = 10;
const RECORD_LIMIT: i32 = 20;
const BEFORE_RECORDS: i32 = 25;
const RECORDS: i32 = 30;
const BEHIND_RECORDS: i32 = 35;
const TOTAL: i32 = 40;
const ROOM: i32 = 50;
const LAST_OF_ALL: i32 = 60;

const FIRST_OF_RECORD: i32 = -10;
const BYTES: i32 = 0;
const SEGMENT: i32 = 10;
const BEFORE_FIELDS: i32 = 15;
const FIELDS: i32 = 20;
const BEHIND_FIELDS: i32 = 25;
const REGISTRATION: i32 = 28;
const BOLETO: i32 = 30;
const COLLECTION: i32 = 40;

const CHECK: i32 = 0;
const DUE_DATE: i32 = 10;
const CENTS: i32 = 20;
const EQUATION: i32 = 30;

impl Rank {
    fn of(row: Row) -> Rank {
        let (part, part_of_record, place) = match row {
            Row::Turn => (TURN, 0, 0),
            Row::Limit => (LIMIT, 0, 0),
            Row::RecordLimit => (RECORD_LIMIT, 0, 0),
            Row::Bytes(_) => (RECORDS, BYTES, 0),
            Row::Segment(_) => (RECORDS, SEGMENT, 0),
            Row::Field(_, field) => (RECORDS, FIELDS, field.first as i32),
            Row::Registration(_, field) => (RECORDS, REGISTRATION, field.first as i32),
            Row::Boleto(_, rule) => (RECORDS, BOLETO, place_of_rule(rule)),
            Row::Collection(_, rule) => (RECORDS, COLLECTION, rule as i32),
            Row::Total => (TOTAL, 0, 0),
            Row::Room => (ROOM, 0, 0),
        };
        Rank {
            part,
            record: row.record().unwrap_or(0) as i32,
            part_of_record,
            place,
        }
    }

    /// The rank that a mistake gives to a row.
    fn with(mut self, fault: WriterFault, row: Row) -> Rank {
        match (fault, row) {
            (WriterFault::LimitBeforeTurn, Row::Limit) => self.part = FIRST_OF_ALL,
            (WriterFault::RoomFirst, Row::Room) => self.part = FIRST_OF_ALL,
            (WriterFault::RoomBeforeLimit, Row::Room) => self.part = LIMIT - 1,
            (WriterFault::RoomBeforeRecords, Row::Room) => self.part = BEFORE_RECORDS,
            (WriterFault::TurnBehindRecords, Row::Turn) => self.part = BEHIND_RECORDS,
            (WriterFault::LimitBehindRecords, Row::Limit) => self.part = BEHIND_RECORDS,
            (WriterFault::LimitBehindRoom, Row::Limit) => self.part = LAST_OF_ALL,
            (WriterFault::BytesOfAllRecordsFirst, Row::Bytes(_))
            | (WriterFault::SegmentsOfAllRecordsFirst, Row::Segment(_)) => {
                self.part = BEFORE_RECORDS;
            }
            (WriterFault::BoletoRulesBehindRecords, Row::Boleto(..)) => self.part = BEHIND_RECORDS,
            (WriterFault::RecordsFromTheLast, _) => self.record = -self.record,
            (WriterFault::SegmentBeforeBytes, Row::Segment(_)) => {
                self.part_of_record = FIRST_OF_RECORD;
            }
            (WriterFault::SegmentBehindFields, Row::Segment(_)) => {
                self.part_of_record = BEHIND_FIELDS;
            }
            (WriterFault::BytesBehindFields, Row::Bytes(_)) => self.part_of_record = BEHIND_FIELDS,
            (WriterFault::BoletoRulesBeforeFields, Row::Boleto(..)) => {
                self.part_of_record = BEFORE_FIELDS;
            }
            (WriterFault::FieldsFromTheRight, Row::Field(..)) => self.place = -self.place,
            (WriterFault::DueDateBeforeCheck, Row::Boleto(_, BoletoRule::DueDate)) => {
                self.place = CHECK - 1;
            }
            (WriterFault::CentsBeforeDueDate, Row::Boleto(_, BoletoRule::Cents)) => {
                self.place = DUE_DATE - 1;
            }
            (WriterFault::EquationBeforeCents, Row::Boleto(_, BoletoRule::Equation)) => {
                self.place = CENTS - 1;
            }
            _ => {}
        }
        self
    }
}

fn place_of_rule(rule: BoletoRule) -> i32 {
    match rule {
        BoletoRule::GeneralCheck => CHECK,
        BoletoRule::DueDate => DUE_DATE,
        BoletoRule::Cents => CENTS,
        BoletoRule::Equation => EQUATION,
    }
}
