//! The order in which document 01 tests a line of a file.

use super::boleto_rules::{BoletoRule, BOLETO_RULES};
use super::collection_rules::{CollectionRule, COLLECTION_RULES};
use super::layout_table::{self as table, Field};
use super::places::{Part, BATCH_RECORDS, FILE_BATCHES, FILE_RECORDS, SEGMENT, TYPE};
use super::record_kinds::RecordKind;

/// A row of document 01's numbers that can refuse a line.
#[derive(Clone, Copy, PartialEq, Eq)]
pub enum Row {
    End,
    Length,
    Bytes,
    LineEnd,
    Type,
    BatchLimit,
    Bank,
    BatchNumber,
    DetailNumber,
    Segment,
    PaymentLimit,
    Field(Field),
    Count(Part),
    Registration(Field),
    Boleto(BoletoRule),
    Collection(CollectionRule),
    Sum,
    Total,
}

/// The rows for a line that is read as this kind of record. A line without one
/// is refused by its type at the latest.
pub fn rows_in_order(kind: Option<RecordKind>) -> Vec<Row> {
    let mut rows = vec![Row::End, Row::Length, Row::Bytes, Row::LineEnd, Row::Type];
    if let Some(kind) = kind {
        if kind == RecordKind::BatchHeader {
            rows.push(Row::BatchLimit);
        }
        rows.extend([Row::Bank, Row::BatchNumber]);
        if kind.segment().is_some() {
            rows.extend([Row::DetailNumber, Row::Segment, Row::PaymentLimit]);
        }
        rows.extend(field_rows(kind));
        rows.extend(
            table::registrations(kind)
                .into_iter()
                .map(Row::Registration),
        );
        if kind == RecordKind::J {
            rows.extend(BOLETO_RULES.map(Row::Boleto));
        }
        if kind == RecordKind::O {
            rows.extend(COLLECTION_RULES.map(Row::Collection));
        }
        if kind == RecordKind::BatchTrailer {
            rows.extend([Row::Sum, Row::Total]);
        }
    }
    rows
}

/// A count stands behind the test of its own field for digits.
fn field_rows(kind: RecordKind) -> Vec<Row> {
    let mut rows = Vec::new();
    for field in own_fields(kind) {
        rows.push(Row::Field(field));
        let mut counts = counts(kind).iter();
        let count = counts.find(|count| count.first == field.first);
        rows.extend(count.map(|count| Row::Count(*count)));
    }
    rows
}

/// The fields that the numbers before them do not cover.
fn own_fields(kind: RecordKind) -> impl Iterator<Item = Field> {
    let covered = if kind.segment().is_some() {
        SEGMENT.last
    } else {
        TYPE.last
    };
    let fields = table::fields(kind).into_iter();
    fields.filter(move |field| field.first > covered)
}

fn counts(kind: RecordKind) -> &'static [Part] {
    match kind {
        RecordKind::BatchTrailer => &[BATCH_RECORDS],
        RecordKind::FileTrailer => &[FILE_BATCHES, FILE_RECORDS],
        _ => &[],
    }
}
