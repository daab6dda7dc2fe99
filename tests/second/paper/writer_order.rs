//! The order in which document 01 tests a call to the writer.

use super::boleto_rules::{BoletoRule, BOLETO_RULES};
use super::collection_rules::{CollectionRule, COLLECTION_RULES};
use super::layout_table::{self as table, Field};
use super::record_kinds::RecordKind;

/// A row of document 01's numbers that can refuse a call. Some rows are about
/// one record of the call, which is counted from 0.
#[derive(Clone, Copy, PartialEq, Eq)]
pub enum Row {
    Turn,
    Limit,
    RecordLimit,
    Bytes(usize),
    Segment(usize),
    Field(usize, Field),
    Registration(usize, Field),
    Boleto(usize, BoletoRule),
    Collection(usize, CollectionRule),
    Total,
    Room,
}

impl Row {
    /// The record of the call that the row is about.
    pub fn record(self) -> Option<usize> {
        match self {
            Row::Bytes(at) | Row::Segment(at) | Row::Field(at, _) => Some(at),
            Row::Registration(at, _) | Row::Boleto(at, _) | Row::Collection(at, _) => Some(at),
            Row::Turn | Row::Limit | Row::RecordLimit | Row::Total | Row::Room => None,
        }
    }
}

/// The rows for a call with records of these kinds.
pub fn rows_in_order(kinds: &[RecordKind]) -> Vec<Row> {
    let mut rows = vec![Row::Turn, Row::Limit, Row::RecordLimit];
    for (at, kind) in kinds.iter().enumerate() {
        rows.extend([Row::Bytes(at), Row::Segment(at)]);
        let fields = table::fields(*kind).into_iter();
        rows.extend(fields.map(|field| Row::Field(at, field)));
        let registrations = table::registrations(*kind).into_iter();
        rows.extend(registrations.map(|field| Row::Registration(at, field)));
        if *kind == RecordKind::J {
            rows.extend(BOLETO_RULES.map(|rule| Row::Boleto(at, rule)));
        }
        if *kind == RecordKind::O {
            rows.extend(COLLECTION_RULES.map(|rule| Row::Collection(at, rule)));
        }
    }
    rows.extend([Row::Total, Row::Room]);
    rows
}
