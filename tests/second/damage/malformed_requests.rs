//! Requests with a header that is wrong in one way or several.

use crate::asking::probe::{self, Header, Op, Request, BYTES_LIMIT, HEADER_BYTES};
use crate::asking::probe::{DIRECTION_AT, KIND_AT, OP_AT};
use crate::making::good_requests::good_requests;
use crate::making::random::Random;
use crate::paper::examples::PAPER_LINE;

const MALFORMED_SEED: u64 = 3;

/// Bytes that are wrong in some part of a header. None of them is a letter,
/// so that later ops do not turn these requests into good ones.
const HEADER_BYTES_TO_TRY: &[u8] = b"?+- /:\x00\xFF\r\n";
const DIRECTIONS_TO_TRY: &[u8] = b"03x";
/// Kinds of record, which digit strings do not have, and bytes that name none.
const KINDS_TO_TRY: &[u8] = b"AJ0134z";
const HEADERS_WITH_SEVERAL_CHANGES: usize = 200;
const MOST_HEADER_CHANGES: usize = 3;
const LARGEST_SIX_DIGITS: usize = 999_999;
const ROOM_UNUSED: [Op; 4] = [
    Op::ReadRecord,
    Op::CheckFile,
    Op::CheckLines,
    Op::CheckParts,
];

/// The few among them that stay well-formed are cases as good as any.
pub fn malformed_requests() -> Vec<Request> {
    let mut random = Random::with_seed(MALFORMED_SEED);
    let mut headers = Vec::new();
    for good in good_requests() {
        headers.extend(headers_over_the_limit(&good.header));
        headers.extend(headers_with_one_change(&good.header));
        for _ in 0..HEADERS_WITH_SEVERAL_CHANGES {
            headers.push(header_with_several_changes(&good.header, &mut random));
        }
    }
    headers.into_iter().map(with_bait).collect()
}

fn headers_over_the_limit(good: &Header) -> Vec<Header> {
    let mut headers = Vec::new();
    for too_much in [BYTES_LIMIT + 1, LARGEST_SIX_DIGITS] {
        headers.push(with_sizes(good, 0, too_much));
        // Where the room is not used, no size of it is wrong.
        if !ROOM_UNUSED.map(Op::code).contains(&good[OP_AT]) {
            headers.push(with_sizes(good, too_much, 0));
            headers.push(with_sizes(good, too_much, PAPER_LINE.len()));
        }
    }
    headers
}

fn with_sizes(good: &Header, room: usize, length: usize) -> Header {
    let mut header = probe::header(good[OP_AT], good[DIRECTION_AT], room, length);
    header[KIND_AT] = good[KIND_AT];
    header
}

fn headers_with_one_change(good: &Header) -> Vec<Header> {
    let everywhere =
        (0..HEADER_BYTES).flat_map(|at| HEADER_BYTES_TO_TRY.iter().map(move |byte| (at, *byte)));
    let directions = DIRECTIONS_TO_TRY.iter().map(|byte| (DIRECTION_AT, *byte));
    let kinds = KINDS_TO_TRY.iter().map(|byte| (KIND_AT, *byte));
    let changes = everywhere.chain(directions).chain(kinds);
    changes.map(|(at, byte)| changed(good, at, byte)).collect()
}

pub fn changed(good: &Header, at: usize, byte: u8) -> Header {
    let mut header = *good;
    header[at] = byte;
    header
}

fn header_with_several_changes(good: &Header, random: &mut Random) -> Header {
    let mut header = *good;
    for _ in 0..random.between(2, MOST_HEADER_CHANGES) {
        let at = random.below(HEADER_BYTES);
        header[at] = random.pick(HEADER_BYTES_TO_TRY);
    }
    header
}

/// The payload is made of good requests: a program that does not skip it, or
/// skips too much or too little, answers one request too many or too few.
pub fn with_bait(header: Header) -> Request {
    let mut bait = Vec::new();
    for good in good_requests() {
        good.append_to(&mut bait);
    }
    let payload = bait
        .into_iter()
        .cycle()
        .take(probe::announced_length(&header))
        .collect();
    Request { header, payload }
}
