//! The calls of the writer, and the records that a caller gives to them.

use super::record_kinds::RecordKind;
use super::records::Values;

#[derive(Clone, Copy, PartialEq, Eq)]
pub enum CallKind {
    OpenFile,
    OpenBatch,
    Payment,
    CloseBatch,
    CloseFile,
}

pub const CALL_KINDS: [CallKind; 5] = [
    CallKind::OpenFile,
    CallKind::OpenBatch,
    CallKind::Payment,
    CallKind::CloseBatch,
    CallKind::CloseFile,
];

impl CallKind {
    /// What the only record of the call is; the records of a payment are what
    /// the caller says.
    pub fn only_record(self) -> Option<RecordKind> {
        match self {
            CallKind::OpenFile => Some(RecordKind::FileHeader),
            CallKind::OpenBatch => Some(RecordKind::BatchHeader),
            CallKind::Payment => None,
            CallKind::CloseBatch => Some(RecordKind::BatchTrailer),
            CallKind::CloseFile => Some(RecordKind::FileTrailer),
        }
    }
}

#[derive(Clone)]
pub struct GivenRecord {
    pub kind: RecordKind,
    pub values: Values,
}

#[derive(Clone)]
pub struct WriterCall {
    pub kind: CallKind,
    pub records: Vec<GivenRecord>,
}

impl WriterCall {
    /// The kinds of its records, the caller's word counting only in a payment.
    pub fn kinds(&self) -> Vec<RecordKind> {
        let given = self.records.iter().map(|record| record.kind);
        given
            .map(|given| self.kind.only_record().unwrap_or(given))
            .collect()
    }
}
