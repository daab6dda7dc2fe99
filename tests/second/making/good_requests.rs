//! One good request of each op.

use crate::asking::probe::{self, Op, Request, UNUSED};
use crate::asking::{part_calls, writer_script};
use crate::making::cuttings::in_lengths;
use crate::making::good_calls::{calls_of, small_file, steps};
use crate::making::plain_files;
use crate::making::random::Random;
use crate::paper::examples::{COLLECTION_EXAMPLES, PAPER_BARCODE, PAPER_LINE};
use crate::paper::file_state::BatchKind;
use crate::paper::lines::{LINE_BYTES, RECORD_BYTES};
use crate::paper::parts::PartCall;
use crate::paper::record_kinds::{Direction, RecordKind, Subject};
use crate::paper::records::Values;

const GOOD_SCRIPT_SEED: u64 = 11;
const ROOM: usize = 50;
const PART_BYTES: usize = 150;
/// A file trailer, but for the blanks behind it.
const FILE_TRAILER: &[u8] = b"23799999         000001000006000000";

/// In the order of the ops.
pub fn good_requests() -> [Request; 10] {
    let mut record = FILE_TRAILER.to_vec();
    record.resize(RECORD_BYTES, b' ');
    let kind = RecordKind::FileTrailer;
    let direction = Direction::Remittance;
    let subject = Subject { kind, direction };
    let values = Values::of_record(kind, &record).to_payload();
    let lines = plain_files::one_payment();
    let calls = probe::payload_of_calls(lines.chunks(LINE_BYTES));
    let parts = in_parts(&lines);
    let (script, file) = good_script();
    let (code, code_line) = COLLECTION_EXAMPLES[0];
    [
        Request::new(Op::BarcodeToLine, UNUSED, ROOM, PAPER_BARCODE.to_vec()),
        Request::new(Op::LineToBarcode, UNUSED, ROOM, PAPER_LINE.to_vec()),
        Request::about_record(Op::ReadRecord, subject, 0, record),
        Request::about_record(Op::WriteRecord, subject, RECORD_BYTES, values),
        Request::new(Op::CheckFile, UNUSED, 0, file),
        Request::new(Op::CheckLines, UNUSED, 0, calls),
        script,
        Request::new(Op::CheckParts, UNUSED, 0, parts),
        Request::new(Op::CodeToLine, UNUSED, ROOM, code.to_vec()),
        Request::new(Op::CodeLineToCode, UNUSED, ROOM, code_line.to_vec()),
    ]
}

/// In parts of half a line and a bit, and then the end.
fn in_parts(file: &[u8]) -> Vec<u8> {
    let parts = in_lengths(file, PART_BYTES).into_iter();
    let calls = parts.map(PartCall::Part).chain([PartCall::End]);
    part_calls::to_payload(&calls.collect::<Vec<PartCall>>())
}

/// A script that closes a file, and that file.
fn good_script() -> (Request, Vec<u8>) {
    let mut random = Random::with_seed(GOOD_SCRIPT_SEED);
    let made = small_file(&mut random, Direction::Remittance, BatchKind::Credit);
    let script = steps(&calls_of(&mut random, &made));
    let payload = writer_script::to_payload(&script);
    let file = made.bytes();
    (
        Request::new(Op::WriteFile, UNUSED, file.len(), payload),
        file,
    )
}
