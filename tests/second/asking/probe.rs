//! The protocol of the program under test: how a request is written and what
//! it asks for.

use crate::asking::part_calls::{self, PartMisfit};
use crate::asking::writer_script::{self, Misfit, Step};
use crate::paper::collection_codes::CodeConversion;
use crate::paper::digit_strings::Conversion;
use crate::paper::parts::PartCall;
use crate::paper::record_kinds::{all_subjects, RecordKind, Subject};

pub const HEADER_BYTES: usize = 16;
/// Neither the lent memory nor the payload may be larger.
pub const BYTES_LIMIT: usize = 900_000;
/// What every byte of the lent memory holds before the call.
pub const UNTOUCHED: u8 = 0xAA;
pub const UNUSED: u8 = b'-';
pub const DIRECTIONS: [u8; 3] = [b'1', b'2', UNUSED];

pub const OP_AT: usize = 0;
pub const KIND_AT: usize = 1;
pub const DIRECTION_AT: usize = 2;
const ROOM_AT: usize = 3;
const LENGTH_AT: usize = 9;
const LINE_FEED_AT: usize = 15;

const DECIMAL: u32 = 10;

/// A single-line call begins with its length in so many digits.
pub const CALL_LENGTH_DIGITS: usize = 6;

#[derive(Clone, Copy, PartialEq, Eq)]
pub enum Op {
    BarcodeToLine,
    LineToBarcode,
    ReadRecord,
    WriteRecord,
    CheckFile,
    CheckLines,
    WriteFile,
    CheckParts,
    CodeToLine,
    CodeLineToCode,
}

pub const OPS: [Op; 10] = [
    Op::BarcodeToLine,
    Op::LineToBarcode,
    Op::ReadRecord,
    Op::WriteRecord,
    Op::CheckFile,
    Op::CheckLines,
    Op::WriteFile,
    Op::CheckParts,
    Op::CodeToLine,
    Op::CodeLineToCode,
];

impl Op {
    pub fn code(self) -> u8 {
        match self {
            Op::BarcodeToLine => b'B',
            Op::LineToBarcode => b'D',
            Op::ReadRecord => b'C',
            Op::WriteRecord => b'W',
            Op::CheckFile => b'F',
            Op::CheckLines => b'L',
            Op::WriteFile => b'P',
            Op::CheckParts => b'T',
            Op::CodeToLine => b'b',
            Op::CodeLineToCode => b'd',
        }
    }

    pub fn from_code(code: u8) -> Option<Op> {
        OPS.into_iter().find(|op| op.code() == code)
    }
}

impl Conversion {
    pub fn op(self) -> Op {
        match self {
            Conversion::BarcodeToLine => Op::BarcodeToLine,
            Conversion::LineToBarcode => Op::LineToBarcode,
        }
    }
}

impl CodeConversion {
    pub fn op(self) -> Op {
        match self {
            CodeConversion::CodeToLine => Op::CodeToLine,
            CodeConversion::LineToCode => Op::CodeLineToCode,
        }
    }
}

impl RecordKind {
    /// How a request's header names the kind.
    pub fn code(self) -> u8 {
        match self {
            RecordKind::FileHeader => b'0',
            RecordKind::BatchHeader => b'1',
            RecordKind::A => b'A',
            RecordKind::B => b'B',
            RecordKind::J => b'J',
            RecordKind::J52 => b'2',
            RecordKind::O => b'O',
            RecordKind::Z => b'Z',
            RecordKind::BatchTrailer => b'5',
            RecordKind::FileTrailer => b'9',
        }
    }
}

impl Subject {
    fn from_codes(kind: u8, direction: u8) -> Option<Subject> {
        let mut all = all_subjects();
        all.find(|subject| subject.kind.code() == kind && subject.direction.code() == direction)
    }
}

/// The memory that a call is lent.
pub fn untouched(room: usize) -> Vec<u8> {
    vec![UNTOUCHED; room]
}

pub type Header = [u8; HEADER_BYTES];

/// The header is kept as bytes, since malformed ones are cases too.
#[derive(Clone)]
pub struct Request {
    pub header: Header,
    pub payload: Vec<u8>,
}

/// What a well-formed header asks for.
pub enum Call {
    BarcodeToLine { room: usize },
    LineToBarcode { room: usize },
    ReadRecord { subject: Subject },
    WriteRecord { subject: Subject, room: usize },
    CheckFile,
    CheckLines,
    WriteFile { room: usize },
    CheckParts,
    CodeToLine { room: usize },
    CodeLineToCode { room: usize },
}

pub fn header(op: u8, direction: u8, room: usize, length: usize) -> Header {
    let text = format!("{room:06}{length:06}\n");
    let mut header = [UNUSED; HEADER_BYTES];
    header[OP_AT] = op;
    header[DIRECTION_AT] = direction;
    header[ROOM_AT..].copy_from_slice(text.as_bytes());
    header
}

/// The payload length a header announces; 0 where it is not all digits.
pub fn announced_length(header: &Header) -> usize {
    six_digits(&header[LENGTH_AT..LINE_FEED_AT]).unwrap_or(0)
}

pub fn six_digits(bytes: &[u8]) -> Option<usize> {
    let number = bytes.iter().try_fold(0, |number, byte| {
        let digit = char::from(*byte).to_digit(DECIMAL)?;
        Some(number * DECIMAL + digit)
    });
    number.map(|number| number as usize)
}

fn split(bytes: &[u8], at: usize) -> Option<(&[u8], &[u8])> {
    (at <= bytes.len()).then(|| bytes.split_at(at))
}

/// How single-line calls travel in a payload.
pub fn payload_of_calls<'a>(calls: impl IntoIterator<Item = &'a [u8]>) -> Vec<u8> {
    let mut payload = Vec::new();
    for call in calls {
        let length = format!("{:0width$}", call.len(), width = CALL_LENGTH_DIGITS);
        payload.extend_from_slice(length.as_bytes());
        payload.extend_from_slice(call);
    }
    payload
}

impl Request {
    pub fn new(op: Op, direction: u8, room: usize, payload: Vec<u8>) -> Request {
        let header = header(op.code(), direction, room, payload.len());
        Request { header, payload }
    }

    pub fn about_record(op: Op, subject: Subject, room: usize, payload: Vec<u8>) -> Request {
        let mut request = Request::new(op, subject.direction.code(), room, payload);
        request.header[KIND_AT] = subject.kind.code();
        request
    }

    /// The call a well-formed header makes; nothing for a malformed one. The
    /// payload of a call may be malformed still.
    pub fn call(&self) -> Option<Call> {
        let op = Op::from_code(self.header[OP_AT])?;
        let room = six_digits(&self.header[ROOM_AT..LENGTH_AT])?;
        let length = six_digits(&self.header[LENGTH_AT..LINE_FEED_AT])?;
        if room > BYTES_LIMIT || length > BYTES_LIMIT || self.header[LINE_FEED_AT] != b'\n' {
            return None;
        }
        match op {
            Op::BarcodeToLine => self
                .names_no_record()
                .then_some(Call::BarcodeToLine { room }),
            Op::LineToBarcode => self
                .names_no_record()
                .then_some(Call::LineToBarcode { room }),
            Op::ReadRecord => self.subject().map(|subject| Call::ReadRecord { subject }),
            Op::WriteRecord => self
                .subject()
                .map(|subject| Call::WriteRecord { subject, room }),
            Op::CheckFile => self.names_no_record().then_some(Call::CheckFile),
            Op::CheckLines => self.names_no_record().then_some(Call::CheckLines),
            Op::WriteFile => self.names_no_record().then_some(Call::WriteFile { room }),
            Op::CheckParts => self.names_no_record().then_some(Call::CheckParts),
            Op::CodeToLine => self.names_no_record().then_some(Call::CodeToLine { room }),
            Op::CodeLineToCode => self
                .names_no_record()
                .then_some(Call::CodeLineToCode { room }),
        }
    }

    /// The single-line calls the payload is made of; nothing for a payload that
    /// is no such sequence.
    pub fn line_calls(&self) -> Option<Vec<&[u8]>> {
        let mut calls = Vec::new();
        let mut rest = self.payload.as_slice();
        while !rest.is_empty() {
            let length = six_digits(rest.get(..CALL_LENGTH_DIGITS)?)?;
            let (call, behind) = split(&rest[CALL_LENGTH_DIGITS..], length)?;
            calls.push(call);
            rest = behind;
        }
        Some(calls)
    }

    /// The steps of a script for the writer, or why the payload is none.
    pub fn script(&self) -> Result<Vec<Step>, Misfit> {
        writer_script::from_payload(&self.payload)
    }

    /// The calls of a file in parts, or why the payload is none.
    pub fn part_calls(&self) -> Result<Vec<PartCall<'_>>, PartMisfit> {
        part_calls::from_payload(&self.payload)
    }

    fn names_no_record(&self) -> bool {
        self.header[KIND_AT] == UNUSED && DIRECTIONS.contains(&self.header[DIRECTION_AT])
    }

    fn subject(&self) -> Option<Subject> {
        Subject::from_codes(self.header[KIND_AT], self.header[DIRECTION_AT])
    }

    pub fn op_code(&self) -> u8 {
        self.header[OP_AT]
    }

    pub fn append_to(&self, stream: &mut Vec<u8>) {
        stream.extend_from_slice(&self.header);
        stream.extend_from_slice(&self.payload);
    }
}
