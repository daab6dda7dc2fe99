//! The requests about files at the limits of document 01 that a request can
//! hold: 71 batches, and cents that sum to 10^18. They are few, being long.

use crate::asking::probe::{Request, BYTES_LIMIT};
use crate::cases::file_cases::FileCases;
use crate::damage::file_damage::LINE_DAMAGES;
use crate::damage::line_flaws::{spoil_line, Flaw};
use crate::making::good_files::{
    file_of, put_amount, BatchShape, MadeFile, LARGEST_AMOUNT, LARGEST_PAYMENTS, MISSING_CENTS,
};
use crate::making::random::Random;
use crate::paper::file_state::{BatchKind, BATCH_KINDS};
use crate::paper::layout_table::{FIRST_OF_BATCH_HEADER, LAST_BLANKS_OF_BATCH_TRAILER};
use crate::paper::lines::{LINE_BYTES, MOST_BATCHES};
use crate::paper::record_kinds::{Direction, RecordKind, DIRECTIONS};
use crate::paper::totals::Movement::{self, Live, Withdrawn};

/// The flaws that come before and behind the limit of batches.
const FLAWS_OF_HEADERS: [&[Flaw]; 8] = [
    &[],
    &[Flaw::Bank],
    &[Flaw::BatchNumber],
    &[Flaw::Field(FIRST_OF_BATCH_HEADER)],
    &[Flaw::Type],
    &[Flaw::Byte],
    &[Flaw::LineEnd],
    &[Flaw::Bank, Flaw::BatchNumber],
];
/// The flaws that come before and behind the limit of cents.
const FLAWS_OF_TRAILERS: [&[Flaw]; 5] = [
    &[],
    &[Flaw::Sum],
    &[Flaw::FirstCount],
    &[Flaw::Field(LAST_BLANKS_OF_BATCH_TRAILER)],
    &[Flaw::Sum, Flaw::Field(LAST_BLANKS_OF_BATCH_TRAILER)],
];
const LONG_BATCHES: [usize; 4] = [9, 11, 30, 110];
pub fn requests(random: &mut Random) -> Vec<Request> {
    let mut cases = FileCases::new(random);
    for direction in DIRECTIONS {
        for batches in [MOST_BATCHES - 1, MOST_BATCHES] {
            let file = many_batches(&mut cases, direction, batches as usize);
            cases.ask_file(file.bytes());
            cases.ask_calls(&file.calls());
        }
        for flaws in FLAWS_OF_HEADERS {
            ask_one_batch_too_many(&mut cases, direction, flaws);
        }
        ask_damaged_files(&mut cases, direction);
        ask_large_sums(&mut cases, direction);
        ask_large_mixes(&mut cases, direction);
    }
    ask_largest_file(&mut cases);
    cases.requests
}

/// Batch and detail numbers of more than one digit, right and wrong.
fn ask_damaged_files(cases: &mut FileCases, direction: Direction) {
    for damage in LINE_DAMAGES {
        let mut file = many_batches(cases, direction, MOST_BATCHES as usize);
        damage(cases.random, &mut file);
        cases.ask_file(file.bytes());
        let kind = cases.random.pick(&BATCH_KINDS);
        for payments in LONG_BATCHES {
            let mut file = file_of(cases.random, direction, &[BatchShape { kind, payments }]);
            damage(cases.random, &mut file);
            cases.ask_file(file.bytes());
        }
    }
}

/// As many lines as a request can hold.
fn ask_largest_file(cases: &mut FileCases) {
    let lines_of_both_ends = 4;
    let payments = (BYTES_LIMIT / LINE_BYTES - lines_of_both_ends) / 2;
    let kind = BatchKind::Boleto;
    let shapes = [BatchShape { kind, payments }];
    let file = file_of(cases.random, Direction::Remittance, &shapes);
    cases.ask_file(file.bytes());
}

pub fn many_batches(cases: &mut FileCases, direction: Direction, batches: usize) -> MadeFile {
    let shapes = (0..batches).map(|_| BatchShape {
        kind: cases.random.pick(&BATCH_KINDS),
        payments: 1,
    });
    let shapes: Vec<BatchShape> = shapes.collect();
    file_of(cases.random, direction, &shapes)
}

fn ask_one_batch_too_many(cases: &mut FileCases, direction: Direction, flaws: &[Flaw]) {
    let mut file = many_batches(cases, direction, MOST_BATCHES as usize + 1);
    let headers = file.positions(RecordKind::BatchHeader);
    if let Some(last) = headers.last() {
        spoil_line(cases.random, &mut file, *last, flaws);
    }
    cases.ask_file(file.bytes());
    cases.ask_calls(&file.calls());
}

fn ask_large_sums(cases: &mut FileCases, direction: Direction) {
    // One batch that reaches 10^18, and one cent less.
    for last in [MISSING_CENTS, MISSING_CENTS - 1] {
        let file = large_sum(cases, direction, 1, last);
        cases.ask_file(file.bytes());
    }
    // Two batches that do so together.
    for last in [MISSING_CENTS - 1, MISSING_CENTS, MISSING_CENTS + 1] {
        let file = large_sum(cases, direction, 2, last);
        cases.ask_file(file.bytes());
    }
    let file = large_sum(cases, direction, 3, MISSING_CENTS);
    cases.ask_calls(&file.calls());
    for flaws in FLAWS_OF_TRAILERS {
        let mut file = large_sum(cases, direction, 2, LARGEST_AMOUNT);
        let trailers = file.positions(RecordKind::BatchTrailer);
        if let Some(last) = trailers.last() {
            spoil_line(cases.random, &mut file, *last, flaws);
        }
        cases.ask_file(file.bytes());
    }
}

/// Live and withdrawn payments reach 10^18 together, in two batches and in one,
/// or miss it by a cent.
fn ask_large_mixes(cases: &mut FileCases, direction: Direction) {
    for movements in large_mixes() {
        for last in [MISSING_CENTS - 1, MISSING_CENTS] {
            let mut file = large_sum(cases, direction, 2, last);
            file.put_movements(&movements);
            cases.ask_file(file.bytes());
        }
        let mut file = large_sum(cases, direction, 1, MISSING_CENTS);
        file.put_movements(&movements);
        cases.ask_file(file.bytes());
    }
    let mut file = large_sum(cases, direction, 2, MISSING_CENTS);
    file.put_movements(&[Live, Withdrawn]);
    cases.ask_calls(&file.calls());
}

/// All live, all withdrawn, in turn, the one batch live and the other withdrawn,
/// and all but the last payment.
fn large_mixes() -> Vec<Vec<Movement>> {
    let all = LARGEST_PAYMENTS as usize;
    let behind = |before: Movement, payments: usize| {
        let mut movements = vec![before; payments];
        movements.resize(all + 1, before.other());
        movements
    };
    vec![
        vec![Live],
        vec![Withdrawn],
        vec![Live, Withdrawn],
        behind(Live, all / 2),
        behind(Withdrawn, all / 2),
        behind(Live, all),
        behind(Withdrawn, all),
    ]
}

/// A file of so many batches whose payments all have the largest amount, but
/// for the last.
pub fn large_sum(
    cases: &mut FileCases,
    direction: Direction,
    batches: usize,
    last: u64,
) -> MadeFile {
    let kind = cases.random.pick(&BATCH_KINDS);
    let mut left = LARGEST_PAYMENTS as usize + 1;
    let mut shapes = Vec::new();
    for batches_left in (1..=batches).rev() {
        let payments = left / batches_left;
        shapes.push(BatchShape { kind, payments });
        left -= payments;
    }
    let mut file = file_of(cases.random, direction, &shapes);
    let mut payments = file.payments();
    let last_payment = payments.pop();
    for at in payments {
        put_amount(&mut file.lines[at], LARGEST_AMOUNT);
    }
    if let Some(at) = last_payment {
        put_amount(&mut file.lines[at], last);
    }
    file.renumber();
    file
}
