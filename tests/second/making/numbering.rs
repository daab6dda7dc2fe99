//! What the lines of a file owe to each other: bank, batch and detail numbers,
//! counts and sums. Files are made by filling these in last.

use crate::paper::lines::{LINE_END, RECORD_BYTES};
use crate::paper::places::{
    self, BANK, BATCH_NUMBER, BATCH_RECORDS, BATCH_SUM, DETAIL_NUMBER, FILE_BATCHES, FILE_RECORDS,
};
use crate::paper::record_kinds::RecordKind;

const FILE_HEADER_NUMBER: u64 = 0;
const FILE_TRAILER_NUMBER: u64 = 9_999;
/// A batch has two records besides its details.
const BOTH_ENDS: u64 = 2;

pub struct Numbering {
    bank: Vec<u8>,
    records: u64,
    batches: u64,
    details: u64,
    batch_cents: u128,
}

impl Numbering {
    pub fn of_bank(bank: &[u8]) -> Numbering {
        Numbering {
            bank: bank.to_vec(),
            records: 0,
            batches: 0,
            details: 0,
            batch_cents: 0,
        }
    }

    /// The next line of the file, made of a record whose own fields are right.
    pub fn next_line(&mut self, kind: RecordKind, mut record: Vec<u8>) -> Vec<u8> {
        self.fill(kind, &mut record);
        record.truncate(RECORD_BYTES);
        record.extend_from_slice(LINE_END);
        record
    }

    /// Numbers that outgrow their field lose the leading digits: so do the
    /// trailers of files that are too large, and such files are cases too.
    fn fill(&mut self, kind: RecordKind, record: &mut [u8]) {
        self.records += 1;
        BANK.put(record, &self.bank);
        match kind {
            RecordKind::BatchHeader => {
                self.batches += 1;
                self.details = 0;
                self.batch_cents = 0;
            }
            RecordKind::BatchTrailer => {
                let records = self.details + BOTH_ENDS;
                BATCH_RECORDS.put_number(record, u128::from(records));
                BATCH_SUM.put_number(record, self.batch_cents);
            }
            RecordKind::FileTrailer => {
                FILE_BATCHES.put_number(record, u128::from(self.batches));
                FILE_RECORDS.put_number(record, u128::from(self.records));
            }
            RecordKind::FileHeader => {}
            _ => {
                self.details += 1;
                DETAIL_NUMBER.put_number(record, u128::from(self.details));
                let amount = places::amount(kind).map_or(0, |part| part.number(record));
                self.batch_cents += u128::from(amount);
            }
        }
        BATCH_NUMBER.put_number(record, u128::from(self.number_of(kind)));
    }

    fn number_of(&self, kind: RecordKind) -> u64 {
        match kind {
            RecordKind::FileHeader => FILE_HEADER_NUMBER,
            RecordKind::FileTrailer => FILE_TRAILER_NUMBER,
            _ => self.batches,
        }
    }
}
