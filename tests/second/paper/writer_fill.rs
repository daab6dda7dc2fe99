//! What the writer puts into a record by itself: the fixed content, and the
//! numbers that follow from the calls accepted before.

use super::file_state::State;
use super::layout_table::{self as table, Field};
use super::line_rules::number_of_batch;
use super::places::{Part, BANK, BATCH_NUMBER, BATCH_RECORDS, BATCH_SUM, DETAIL_NUMBER};
use super::places::{FILE_BATCHES, FILE_RECORDS};
use super::record_kinds::RecordKind;
use super::record_rules::Draft;
use super::records::{number_of, Records, Values};
use super::Paper;

/// A batch has two records besides its details.
pub const BOTH_ENDS: u64 = 2;

/// The fields the writer fills with numbers of its own, which it does in all
/// records alike but for the file header's bank: that is the caller's.
pub fn filled_parts(kind: RecordKind) -> Vec<Part> {
    let mut parts = vec![BATCH_NUMBER];
    if kind != RecordKind::FileHeader {
        parts.push(BANK);
    }
    if kind.segment().is_some() {
        parts.push(DETAIL_NUMBER);
    }
    match kind {
        RecordKind::BatchTrailer => parts.extend([BATCH_RECORDS, BATCH_SUM]),
        RecordKind::FileTrailer => parts.extend([FILE_BATCHES, FILE_RECORDS]),
        _ => {}
    }
    parts
}

pub fn filled_part(kind: RecordKind, field: Field) -> Option<Part> {
    let mut parts = filled_parts(kind).into_iter();
    parts.find(|part| part.first == field.first)
}

/// Whether the caller's word counts in this field.
pub fn is_given(kind: RecordKind, field: Field) -> bool {
    field.fixed_content().is_none() && filled_part(kind, field).is_none()
}

/// A record that is to be filled: what it is, the calls accepted before, and
/// how many records of the same call come before it.
#[derive(Clone, Copy)]
pub struct Unfilled<'a> {
    pub kind: RecordKind,
    pub state: &'a State,
    pub before: u64,
}

pub trait Filling: Records {
    /// The record as it would be written.
    fn filled_draft(&self, unfilled: Unfilled, values: &Values) -> Draft {
        self.draft(unfilled.kind, &self.filled_values(unfilled, values))
    }

    fn filled_values(&self, unfilled: Unfilled, values: &Values) -> Values {
        let fields = table::fields(unfilled.kind).into_iter();
        let given = fields.zip(&values.numbers);
        let numbers = given.map(|(field, number)| self.filled_number(unfilled, field, *number));
        Values {
            numbers: numbers.collect(),
            text: values.text.clone(),
        }
    }

    /// The writer's own number, or the caller's where the writer has none.
    fn filled_number(&self, unfilled: Unfilled, field: Field, given: Option<u64>) -> Option<u64> {
        match filled_part(unfilled.kind, field) {
            Some(part) => Some(own_number(unfilled, part)),
            None => given,
        }
    }
}

impl Filling for Paper {}

pub fn own_number(unfilled: Unfilled, part: Part) -> u64 {
    let Unfilled {
        kind,
        state,
        before,
    } = unfilled;
    let details = state.batch().map_or(0, |batch| batch.details);
    let sum = state.batch().map_or(0, |batch| batch.totals.cents());
    match part {
        BANK => number_of(&state.bank),
        BATCH_NUMBER => number_of_batch(kind, state),
        DETAIL_NUMBER => details + before + 1,
        BATCH_SUM => sum as u64,
        _ if kind == RecordKind::BatchTrailer => details + BOTH_ENDS,
        FILE_BATCHES => state.batches,
        _ => state.accepted_lines + 1,
    }
}
