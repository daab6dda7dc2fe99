//! Calls to the writer that write a good file. Where the caller's word does not
//! count, anything may stand, and mostly something does.

use crate::asking::writer_script::{Step, NUMBERS_OF_A_RECORD};
use crate::making::good_files::{file_of, BatchShape, MadeFile, MadeLine};
use crate::making::random::Random;
use crate::paper::file_state::{BatchKind, BATCH_KINDS};
use crate::paper::layout_table::{self as table, Field};
use crate::paper::lines::RECORD_BYTES;
use crate::paper::record_kinds::{Direction, RecordKind, Subject, RECORD_KINDS};
use crate::paper::records::Values;
use crate::paper::writer_calls::{CallKind, GivenRecord, WriterCall};
use crate::paper::writer_fill::is_given;

const SECOND_BATCH_ONCE_IN: usize = 10;
const SECOND_PAYMENT_ONCE_IN: usize = 8;

/// The calls that write the file.
pub fn calls_of(random: &mut Random, file: &MadeFile) -> Vec<WriterCall> {
    let mut calls: Vec<WriterCall> = Vec::new();
    for line in &file.lines {
        let record = given_record(random, line);
        let kind = match line.kind {
            RecordKind::FileHeader => CallKind::OpenFile,
            RecordKind::BatchHeader => CallKind::OpenBatch,
            RecordKind::A | RecordKind::J | RecordKind::O => CallKind::Payment,
            RecordKind::BatchTrailer => CallKind::CloseBatch,
            RecordKind::FileTrailer => CallKind::CloseFile,
            RecordKind::B | RecordKind::J52 | RecordKind::Z => {
                if let Some(payment) = calls.last_mut() {
                    payment.records.push(record);
                }
                continue;
            }
        };
        let records = vec![record];
        calls.push(WriterCall { kind, records });
    }
    calls
}

/// What a caller gives to have this line written. Only in a payment does its
/// word on the kind of record count.
pub fn given_record(random: &mut Random, line: &MadeLine) -> GivenRecord {
    let mut values = Values::of_record(line.kind, &line.bytes[..RECORD_BYTES]);
    values.numbers.resize(NUMBERS_OF_A_RECORD, Some(0));
    fill_unused(random, line.kind, &mut values);
    let is_detail = line.kind.segment().is_some();
    let kind = if is_detail || random.coin() {
        line.kind
    } else {
        random.pick(&RECORD_KINDS)
    };
    GivenRecord { kind, values }
}

/// What a file has there, nothing, or anything.
fn fill_unused(random: &mut Random, kind: RecordKind, values: &mut Values) {
    let filling = random.below(3);
    if filling == 0 {
        return;
    }
    let fields = table::fields(kind);
    for index in 0..NUMBERS_OF_A_RECORD {
        let field = fields.get(index).copied();
        if !field.is_some_and(|field| takes_number(kind, field)) {
            values.numbers[index] = Some(match filling {
                1 => 0,
                _ => any_number(random),
            });
        }
    }
    for field in fields.into_iter().filter(|field| !takes_text(*field)) {
        let bytes = (0..field.width()).map(|_| match filling {
            1 => b' ',
            _ => random.byte(),
        });
        let bytes: Vec<u8> = bytes.collect();
        field.put(&mut values.text, &bytes);
    }
}

/// Whether the caller's number counts in the field.
pub fn takes_number(kind: RecordKind, field: Field) -> bool {
    field.is_number() && is_given(kind, field)
}

/// Whether the caller's text counts in the field. The writer's own numbers all
/// stand in fields that are numbers.
pub fn takes_text(field: Field) -> bool {
    !field.is_number() && field.fixed_content().is_none()
}

/// The fields of a record in which the caller's number counts, with their index
/// among all its fields.
pub fn given_numbers(kind: RecordKind) -> Vec<(usize, Field)> {
    let fields = table::fields(kind).into_iter().enumerate();
    fields
        .filter(|(_, field)| takes_number(kind, *field))
        .collect()
}

pub fn given_texts(kind: RecordKind) -> Vec<Field> {
    let fields = table::fields(kind).into_iter();
    fields.filter(|field| takes_text(*field)).collect()
}

fn any_number(random: &mut Random) -> u64 {
    let any = random.below(usize::MAX) as u64;
    random.pick(&[0, 1, 9, 10, 1_000, any, 1 << 63, u64::MAX])
}

/// A record that a call writes.
#[derive(Clone, Copy)]
pub struct Spot {
    /// The line it becomes, the call and the record in the call, all from 0.
    pub line: usize,
    pub call: usize,
    pub record: usize,
}

/// A good file with the calls that write it, and one of its records.
#[derive(Clone)]
pub struct Frame {
    pub file: MadeFile,
    pub calls: Vec<WriterCall>,
    pub spot: Spot,
}

impl Frame {
    /// A small file with a record of this kind; there is none for the Z that a
    /// remittance does not have.
    pub fn around(random: &mut Random, subject: Subject) -> Option<Frame> {
        let (kind, direction) = (subject.kind, subject.direction);
        if kind == RecordKind::Z && direction == Direction::Remittance {
            return None;
        }
        loop {
            let batch = BatchKind::with_record(kind);
            let batch = batch.unwrap_or_else(|| random.pick(&BATCH_KINDS));
            let file = small_file(random, direction, batch);
            let positions = file.positions(kind);
            if !positions.is_empty() {
                let line = random.pick(&positions);
                return Some(Frame::of(random, file, line));
            }
        }
    }

    pub fn of(random: &mut Random, file: MadeFile, line: usize) -> Frame {
        let calls = calls_of(random, &file);
        let spot = spot_of(&calls, line);
        Frame { file, calls, spot }
    }

    pub fn call(&self) -> &WriterCall {
        &self.calls[self.spot.call]
    }

    pub fn call_mut(&mut self) -> &mut WriterCall {
        &mut self.calls[self.spot.call]
    }

    /// What the frame's record is for the writer.
    pub fn subject(&self) -> Subject {
        Subject {
            kind: self.call().kinds()[self.spot.record],
            direction: self.file.direction,
        }
    }

    /// So many records are written before the frame's call.
    pub fn records_before(&self) -> usize {
        self.spot.line - self.spot.record
    }

    pub fn record_mut(&mut self) -> &mut GivenRecord {
        let at = self.spot.record;
        &mut self.call_mut().records[at]
    }
}

/// Mostly of one batch with one payment.
pub fn small_file(random: &mut Random, direction: Direction, kind: BatchKind) -> MadeFile {
    let batches = 1 + usize::from(random.below(SECOND_BATCH_ONCE_IN) == 0);
    let shapes = (0..batches).map(|_| {
        let payments = 1 + usize::from(random.below(SECOND_PAYMENT_ONCE_IN) == 0);
        BatchShape { kind, payments }
    });
    let shapes: Vec<BatchShape> = shapes.collect();
    file_of(random, direction, &shapes)
}

fn spot_of(calls: &[WriterCall], line: usize) -> Spot {
    let mut before = 0;
    for (call, made) in calls.iter().enumerate() {
        let behind = before + made.records.len();
        if line < behind {
            let record = line - before;
            return Spot { line, call, record };
        }
        before = behind;
    }
    unreachable!("every line of a file is written by a call")
}

pub fn steps(calls: &[WriterCall]) -> Vec<Step> {
    calls.iter().cloned().map(Step::Call).collect()
}

pub fn records_in(script: &[Step]) -> usize {
    let steps = script.iter();
    let records = steps.map(|step| match step {
        Step::Call(call) => call.records.len(),
        _ => 0,
    });
    records.sum()
}
