//! Scripts with records of every kind at every position of a payment.

use crate::cases::script_cases::ScriptCases;
use crate::making::good_calls::{given_record, small_file, Frame};
use crate::making::good_files::{record_for_a_file, MadeLine};
use crate::paper::file_state::{BatchKind, BATCH_KINDS};
use crate::paper::record_kinds::{Direction, RecordKind, DIRECTIONS, RECORD_KINDS};
use crate::paper::writer_calls::GivenRecord;

/// The third is only there if it is given.
pub const POSITIONS: usize = 3;
const WITH_Z_ONCE_IN: usize = 3;

/// A record that is no O does not travel alone.
pub fn is_no_payment(records: &[GivenRecord]) -> bool {
    records.len() == 1 && records[0].kind != RecordKind::O
}

impl ScriptCases<'_> {
    pub fn ask_kinds(&mut self) {
        for direction in DIRECTIONS {
            for batch in BATCH_KINDS {
                for position in 0..POSITIONS {
                    for kind in RECORD_KINDS {
                        self.kind_at(direction, batch, position, kind);
                        self.flawed_kind_at(direction, batch, position, kind);
                    }
                }
            }
        }
    }

    fn kind_at(&mut self, direction: Direction, batch: BatchKind, at: usize, kind: RecordKind) {
        let good = self.payment_frame(direction, batch);
        let mut spoiled = good.clone();
        self.put_record(&mut spoiled, batch, at, kind);
        self.ask_spoiled(&good, &spoiled);
    }

    /// What comes before the test of the kind, and what comes behind it, in the
    /// same record or in another.
    fn flawed_kind_at(
        &mut self,
        direction: Direction,
        batch: BatchKind,
        at: usize,
        kind: RecordKind,
    ) {
        let good = self.payment_frame(direction, batch);
        let mut spoiled = good.clone();
        self.put_record(&mut spoiled, batch, at, kind);
        let records = spoiled.call().records.len();
        let other = self.random.below(records);
        spoiled.spot.record = self.random.pick(&[at, at, other]);
        self.put_any_flaw(&mut spoiled);
        self.ask_spoiled(&good, &spoiled);
    }

    /// A frame around the first record of a payment.
    pub fn payment_frame(&mut self, direction: Direction, batch: BatchKind) -> Frame {
        let file = small_file(self.random, direction, batch);
        let line = self.random.pick(&file.positions(batch.first_kind()));
        Frame::of(self.random, file, line)
    }

    /// Puts a record of this kind, good for itself, into the frame's payment. An O
    /// has a Z behind it where that is what comes before the position.
    fn put_record(&mut self, frame: &mut Frame, batch: BatchKind, at: usize, kind: RecordKind) {
        let direction = frame.file.direction;
        let record = self.detail_or_other(direction, kind);
        let with_z = self.random.below(WITH_Z_ONCE_IN) == 0;
        let z = self.detail_or_other(direction, RecordKind::Z);
        let records = &mut frame.call_mut().records;
        records.truncate(batch.payment_kinds().len());
        while records.len() < at {
            records.push(z.clone());
        }
        if at == records.len() {
            records.push(record);
            return;
        }
        records[at] = record;
        if with_z || is_no_payment(records) {
            records.push(z);
        }
    }

    /// A record as the caller of a payment gives it, whatever its kind.
    pub fn detail_or_other(&mut self, direction: Direction, kind: RecordKind) -> GivenRecord {
        let bytes = record_for_a_file(self.random, kind, direction);
        let mut record = given_record(self.random, &MadeLine { kind, bytes });
        record.kind = kind;
        record
    }
}
