//! Claims of request 5 about number 25, checked over the second program's own
//! writer: the limit of records lies too far for any script.

use crate::checking::writer_claims::answer_behind;
use crate::making::good_calls::{calls_of, given_numbers};
use crate::making::good_files::{file_of, BatchShape};
use crate::making::random::Random;
use crate::paper::file_state::BatchKind;
use crate::paper::layout_table::Entry;
use crate::paper::record_kinds::{Direction, RecordKind};
use crate::paper::writer_calls::WriterCall;
use crate::paper::writer_rules::WriterRules;

/// So many records leave just enough of 999,999 for a batch of one detail, or of
/// two, and their trailers.
const LAST_BEFORE_ONE_DETAIL: u64 = 999_995;
const LAST_BEFORE_TWO_DETAILS: u64 = 999_994;
/// And for a payment of one record, and of two.
const LAST_BEFORE_ONE_RECORD: u64 = 999_996;
const LAST_BEFORE_TWO_RECORDS: u64 = 999_995;

const PAIR_OF_O: [u64; 2] = [29, 11];
/// Right ones and wrong ones, those too that look like the pair of O from one side
/// or by their last digits.
const OTHER_PAIRS: [[u64; 2]; 16] = [
    [20, 1],
    [20, 10],
    [20, 45],
    [3, 30],
    [1, 31],
    [29, 1],
    [29, 10],
    [29, 30],
    [20, 11],
    [22, 11],
    [3, 11],
    [11, 29],
    [129, 11],
    [29, 111],
    [0, 0],
    [u64::MAX, u64::MAX],
];

pub fn check<Rules: WriterRules + Copy>(random: &mut Random, rules: Rules) -> Result<(), String> {
    for direction in [Direction::Remittance, Direction::Return] {
        let calls = calls_of_one_o(random, direction);
        let last = LAST_BEFORE_ONE_DETAIL;
        room_for_a_batch(&calls, PAIR_OF_O, last, rules)?;
        for pair in OTHER_PAIRS {
            room_for_a_batch(&calls, pair, LAST_BEFORE_TWO_DETAILS, rules)?;
        }
        room_for_a_payment(&calls, LAST_BEFORE_ONE_RECORD, rules)?;
    }
    let mut with_z = calls_of_one_o(random, Direction::Return);
    let mut z = with_z[2].records[0].clone();
    z.kind = RecordKind::Z;
    z.values.text.fill(b' ');
    with_z[2].records.push(z);
    room_for_a_payment(&with_z, LAST_BEFORE_TWO_RECORDS, rules)
}

/// The calls that write a file of one O.
fn calls_of_one_o(random: &mut Random, direction: Direction) -> Vec<WriterCall> {
    let kind = BatchKind::Collection;
    loop {
        let file = file_of(random, direction, &[BatchShape { kind, payments: 1 }]);
        if file.positions(RecordKind::Z).is_empty() {
            return calls_of(random, &file);
        }
    }
}

fn room_for_a_batch<Rules: WriterRules + Copy>(
    calls: &[WriterCall],
    pair: [u64; 2],
    last: u64,
    rules: Rules,
) -> Result<(), String> {
    let mut calls = calls.to_vec();
    for (index, field) in given_numbers(RecordKind::BatchHeader) {
        let number = &mut calls[1].records[0].values.numbers[index];
        match field.entry {
            Entry::Service => *number = Some(pair[0]),
            Entry::Form => *number = Some(pair[1]),
            _ => {}
        }
    }
    room_behind(&calls, 1, last, rules).map_err(|claim| format!("{claim} of {pair:?}"))
}

fn room_for_a_payment<Rules: WriterRules + Copy>(
    calls: &[WriterCall],
    last: u64,
    rules: Rules,
) -> Result<(), String> {
    room_behind(calls, 2, last, rules)
}

/// Behind so many records the call is not refused for its room, and behind one
/// more it is.
fn room_behind<Rules: WriterRules + Copy>(
    calls: &[WriterCall],
    at: usize,
    last: u64,
    rules: Rules,
) -> Result<(), String> {
    let said = answer_behind(calls, at, rules, |state| state.accepted_lines = last);
    let over = answer_behind(calls, at, rules, |state| state.accepted_lines = last + 1);
    if said.starts_with("NO 25") || over != format!("NO 25 {} 0", last + 2) {
        return Err("25: not as request 5 says, for a call".to_string());
    }
    Ok(())
}
