//! A script for the writer as it travels in a request: calls one after the
//! other, and steps between them that change what memory the calls are lent.

use crate::asking::probe::{six_digits, untouched};
use crate::asking::values::{sent_number, NoNumber, DIGITS_OF_A_VALUE};
use crate::paper::answers::{Answer, AnswerLine};
use crate::paper::lines::RECORD_BYTES;
use crate::paper::record_kinds::{RecordKind, RECORD_KINDS};
use crate::paper::records::Values;
use crate::paper::writer::Output;
use crate::paper::writer_calls::{CallKind, GivenRecord, WriterCall, CALL_KINDS};

/// Each record comes with so many numbers, which is more than it has fields.
pub const NUMBERS_OF_A_RECORD: usize = 32;
pub const LENT_DIGITS: usize = 6;
pub const LEND: u8 = b'M';
pub const OVERWRITE: u8 = b'X';

impl CallKind {
    pub fn code(self) -> u8 {
        match self {
            CallKind::OpenFile => b'O',
            CallKind::OpenBatch => b'L',
            CallKind::Payment => b'P',
            CallKind::CloseBatch => b'C',
            CallKind::CloseFile => b'E',
        }
    }

    fn from_code(code: u8) -> Option<CallKind> {
        CALL_KINDS.into_iter().find(|kind| kind.code() == code)
    }

    /// How many records the call may have, as the script says it.
    fn counts(self) -> &'static [u8] {
        match self {
            CallKind::Payment => b"123",
            _ => b"1",
        }
    }
}

#[derive(Clone)]
pub enum Step {
    Call(WriterCall),
    /// From here on so many bytes of the memory are lent.
    Lend(usize),
    /// The whole memory is filled with one byte.
    Overwrite(u8),
}

/// Why a payload is no script.
#[derive(Clone, Copy, PartialEq, Eq, PartialOrd, Ord, Debug)]
pub enum Misfit {
    UnknownLetter,
    WrongCount,
    /// A payment of one record that is no O.
    AloneWithoutO,
    UnknownKind,
    /// The kind is the one that the caller names, by its code.
    NoNumber {
        kind: char,
        index: usize,
        reason: NoNumber,
    },
    CutShort,
    NoBytesToLend,
    NoByteToOverwriteWith,
}

/// Those about numbers, which are several, stand elsewhere.
pub const OTHER_MISFITS: [Misfit; 7] = [
    Misfit::UnknownLetter,
    Misfit::WrongCount,
    Misfit::AloneWithoutO,
    Misfit::UnknownKind,
    Misfit::CutShort,
    Misfit::NoBytesToLend,
    Misfit::NoByteToOverwriteWith,
];

impl Output {
    /// The memory of a script, all of it lent.
    pub fn of(room: usize) -> Output {
        Output {
            memory: untouched(room),
            lent: room,
        }
    }

    /// A step that is no call.
    pub fn change(&mut self, step: &Step) {
        match step {
            Step::Call(_) => {}
            Step::Lend(bytes) => self.lent = self.memory.len().min(*bytes),
            Step::Overwrite(byte) => self.memory.fill(*byte),
        }
    }
}

/// Every reply line of a script, and the memory behind it; the calls are
/// carried out as the caller says.
pub fn carried_out(
    script: &[Step],
    room: usize,
    mut carry_out: impl FnMut(&WriterCall, &mut Output) -> AnswerLine,
) -> Answer {
    let mut output = Output::of(room);
    let mut lines = Vec::new();
    for step in script {
        match step {
            Step::Call(call) => lines.push(carry_out(call, &mut output)),
            other => output.change(other),
        }
    }
    Answer {
        memory: Some(output.memory),
        ..Answer::of_lines(lines)
    }
}

pub fn to_payload(script: &[Step]) -> Vec<u8> {
    let mut payload = Vec::new();
    for step in script {
        match step {
            Step::Call(call) => append_call(&mut payload, call),
            Step::Lend(bytes) => {
                payload.push(LEND);
                let digits = format!("{bytes:0width$}", width = LENT_DIGITS);
                payload.extend_from_slice(digits.as_bytes());
            }
            Step::Overwrite(byte) => payload.extend_from_slice(&[OVERWRITE, *byte]),
        }
    }
    payload
}

fn append_call(payload: &mut Vec<u8>, call: &WriterCall) {
    payload.push(call.kind.code());
    payload.extend_from_slice(call.records.len().to_string().as_bytes());
    for record in &call.records {
        payload.push(record.kind.code());
        payload.extend(record.values.to_payload());
    }
}

pub fn from_payload(payload: &[u8]) -> Result<Vec<Step>, Misfit> {
    let mut rest = Rest { bytes: payload };
    let mut script = Vec::new();
    while let Some(letter) = rest.next_byte() {
        script.push(rest.step(letter)?);
    }
    Ok(script)
}

/// Only an O is a payment alone; two or three records may be of any kinds.
fn may_be_payment(records: &[GivenRecord]) -> bool {
    match records {
        [only] => only.kind == RecordKind::O,
        _ => true,
    }
}

/// What is left of a payload.
struct Rest<'a> {
    bytes: &'a [u8],
}

impl<'a> Rest<'a> {
    fn next_byte(&mut self) -> Option<u8> {
        let (first, others) = self.bytes.split_first()?;
        self.bytes = others;
        Some(*first)
    }

    fn next_bytes(&mut self, count: usize) -> Option<&'a [u8]> {
        let taken = self.bytes.get(..count)?;
        self.bytes = &self.bytes[count..];
        Some(taken)
    }

    fn step(&mut self, letter: u8) -> Result<Step, Misfit> {
        match letter {
            LEND => {
                let lent = self.next_bytes(LENT_DIGITS).and_then(six_digits);
                lent.map(Step::Lend).ok_or(Misfit::NoBytesToLend)
            }
            OVERWRITE => {
                let byte = self.next_byte().map(Step::Overwrite);
                byte.ok_or(Misfit::NoByteToOverwriteWith)
            }
            _ => self.call(letter).map(Step::Call),
        }
    }

    fn call(&mut self, letter: u8) -> Result<WriterCall, Misfit> {
        let kind = CallKind::from_code(letter).ok_or(Misfit::UnknownLetter)?;
        let count = self.next_byte().ok_or(Misfit::CutShort)?;
        if !kind.counts().contains(&count) {
            return Err(Misfit::WrongCount);
        }
        let records = (0..count - b'0').map(|_| self.record());
        let records = records.collect::<Result<Vec<_>, _>>()?;
        if kind == CallKind::Payment && !may_be_payment(&records) {
            return Err(Misfit::AloneWithoutO);
        }
        Ok(WriterCall { kind, records })
    }

    fn record(&mut self) -> Result<GivenRecord, Misfit> {
        let code = self.next_byte().ok_or(Misfit::CutShort)?;
        let mut kinds = RECORD_KINDS.into_iter();
        let kind = kinds.find(|kind| kind.code() == code);
        let kind = kind.ok_or(Misfit::UnknownKind)?;
        let numbers = (0..NUMBERS_OF_A_RECORD).map(|index| self.number(kind, index));
        let numbers = numbers.collect::<Result<_, _>>()?;
        let text = self.next_bytes(RECORD_BYTES).ok_or(Misfit::CutShort)?;
        let text = text.to_vec();
        let values = Values { numbers, text };
        Ok(GivenRecord { kind, values })
    }

    /// Nothing for a number that is not given. The kind that the caller names
    /// says which may be, whatever the call makes of the record.
    fn number(&mut self, kind: RecordKind, index: usize) -> Result<Option<u64>, Misfit> {
        let sent = self.next_bytes(DIGITS_OF_A_VALUE);
        let sent = sent.ok_or(Misfit::CutShort)?;
        sent_number(kind, index, sent).map_err(|reason| Misfit::NoNumber {
            kind: char::from(kind.code()),
            index,
            reason,
        })
    }
}
