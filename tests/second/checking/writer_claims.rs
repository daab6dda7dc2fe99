//! Claims of document 01 about the writer, checked over the second program's
//! own: where one fails, the second program is wrong. The limits that no script
//! is long enough for are checked only here.

use crate::checking::record_room_claims;
use crate::making::good_calls::calls_of;
use crate::making::good_files::{any_file, file_of, BatchShape, MadeFile};
use crate::making::movements::give_movement;
use crate::making::random::Random;
use crate::paper::file_state::{BatchKind, Stage, State};
use crate::paper::lines::{CENTS_LIMIT, MOST_PAYMENTS};
use crate::paper::places::AMOUNT_OF_A;
use crate::paper::record_kinds::{Direction, RecordKind};
use crate::paper::totals::{Share, Totals, MOVEMENTS};
use crate::paper::writer::{Output, Writer};
use crate::paper::writer_calls::WriterCall;
use crate::paper::writer_rules::WriterRules;
use crate::paper::Paper;
use crate::sown::faults::writer_limit_faults;
use crate::sown::Sown;

const SEED: u64 = 12;
const FILES: usize = 300;
const ROOM: usize = 3_000;
/// So many records leave just enough of 999,999 for a batch of one payment.
const LAST_RECORDS_BEFORE_A_BATCH: u64 = 999_994;
const LAST_RECORDS_BEFORE_A_PAYMENT: u64 = 999_995;

/// How many files were written byte for byte as they were made, the numbers and
/// sums of which come from elsewhere.
pub fn check() -> Result<usize, String> {
    let mut random = Random::with_seed(SEED);
    for _ in 0..FILES {
        let file = any_file(&mut random);
        let calls = calls_of(&mut random, &file);
        let (answers, bytes) = carried_out(&calls, file.bytes().len());
        let (closed, others) = answers.split_last().ok_or("a file without calls")?;
        demand(
            others.iter().all(|answer| answer == "OK"),
            "acceptance of all calls",
        )?;
        demand(closed.starts_with("OK "), "acceptance of the last call")?;
        demand(bytes == file.bytes(), "the file that was written")?;
    }
    refusals(&mut random)?;
    limits(&mut random, Paper)?;
    mistaken_limits(&mut random)?;
    Ok(FILES)
}

/// All answers, and the output.
fn carried_out(calls: &[WriterCall], room: usize) -> (Vec<String>, Vec<u8>) {
    let mut output = Output::of(room);
    let mut writer = Writer::by(Paper);
    let answers = calls
        .iter()
        .map(|call| writer.call(call, &mut output).to_string());
    (answers.collect(), output.memory)
}

fn file_of_one_payment(random: &mut Random, kind: BatchKind) -> MadeFile {
    let shapes = [BatchShape { kind, payments: 1 }];
    file_of(random, Direction::Remittance, &shapes)
}

/// Calls by their letters in a script, the room, and the last answer. Three are
/// payments too: X of a boleto, Y with a Z, and W of one O. The batch is one of
/// credits.
const REFUSALS: [(&str, usize, &str); 16] = [
    ("L", ROOM, "NO 51 1 0"),
    ("E", ROOM, "NO 51 1 0"),
    ("OO", ROOM, "NO 51 2 0"),
    ("OE", ROOM, "NO 51 2 0"),
    ("OP", ROOM, "NO 51 2 0"),
    ("OLC", ROOM, "NO 51 3 0"),
    ("OLPE", ROOM, "NO 51 5 0"),
    ("OLPCEO", ROOM, "NO 51 7 0"),
    ("OLX", ROOM, "NO 11 3 14"),
    ("OLW", ROOM, "NO 11 3 14"),
    ("OLPW", ROOM, "NO 11 5 14"),
    ("OLY", ROOM, "NO 11 5 14"),
    ("O", 241, "NO 50 1 0"),
    ("OL", 483, "NO 50 2 0"),
    ("OLP", 967, "NO 50 3 0"),
    ("OLY", 0, "NO 51 1 0"),
];

fn refusals(random: &mut Random) -> Result<(), String> {
    let file = file_of_one_payment(random, BatchKind::Credit);
    let calls = calls_of(random, &file);
    let boletos = file_of_one_payment(random, BatchKind::Boleto);
    let boleto = calls_of(random, &boletos)[2].clone();
    let collections = file_of_one_payment(random, BatchKind::Collection);
    let collection = calls_of(random, &collections)[2].clone();
    let mut with_z = calls[2].clone();
    let mut z = with_z.records[1].clone();
    z.kind = RecordKind::Z;
    z.values.text = vec![b' '; z.values.text.len()];
    with_z.records.push(z);
    for (letters, room, refusal) in REFUSALS {
        let made = letters.bytes().map(|letter| match letter {
            b'X' => boleto.clone(),
            b'W' => collection.clone(),
            b'Y' => with_z.clone(),
            _ => {
                let named = calls.iter().find(|call| call.kind.code() == letter);
                named.unwrap_or(&calls[0]).clone()
            }
        });
        let made: Vec<WriterCall> = made.collect();
        let (answers, _) = carried_out(&made, room);
        let last = answers.last().map(String::as_str);
        demand(last == Some(refusal), &format!("{refusal} for {letters}"))?;
    }
    Ok(())
}

/// 20 of payments, 23 and 25, the state being set to what would lead there.
fn limits<Rules: WriterRules + Copy>(random: &mut Random, rules: Rules) -> Result<(), String> {
    let file = file_of_one_payment(random, BatchKind::Credit);
    let calls = calls_of(random, &file);
    record_limits(&calls, rules)?;
    record_room_claims::check(random, rules)?;
    let amount = u128::from(AMOUNT_OF_A.number(&file.lines[2].bytes));
    for movement in MOVEMENTS {
        let mut calls = calls.clone();
        give_movement(&mut calls[2], movement);
        payment_limits(&calls, rules)?;
        total_limits(&calls, amount, rules)?;
    }
    Ok(())
}

fn record_limits<Rules: WriterRules + Copy>(
    calls: &[WriterCall],
    rules: Rules,
) -> Result<(), String> {
    for (records, batch) in [
        (LAST_RECORDS_BEFORE_A_BATCH, "OK"),
        (LAST_RECORDS_BEFORE_A_BATCH + 1, "NO 25 999996 0"),
    ] {
        let said = answer_behind(calls, 1, rules, |state| state.accepted_lines = records);
        demand(said == batch, "25 of a batch")?;
    }
    for (records, payment) in [
        (LAST_RECORDS_BEFORE_A_PAYMENT, "OK"),
        (LAST_RECORDS_BEFORE_A_PAYMENT + 1, "NO 25 999997 0"),
    ] {
        let said = answer_behind(calls, 2, rules, |state| state.accepted_lines = records);
        demand(said == payment, "25 of a payment")?;
    }
    Ok(())
}

/// However the payments before are live and withdrawn.
fn payment_limits<Rules: WriterRules + Copy>(
    calls: &[WriterCall],
    rules: Rules,
) -> Result<(), String> {
    for (payments, payment) in [(MOST_PAYMENTS - 1, "OK"), (MOST_PAYMENTS, "NO 20 3 14")] {
        for parts in divisions(payments.into()) {
            let [live, withdrawn] = parts.map(payments_alone);
            let totals = Totals { live, withdrawn };
            let said = answer_behind(calls, 2, rules, |state| set_batch(state, totals));
            demand(said == payment, "20 of a payment")?;
        }
    }
    Ok(())
}

/// However the cents before are live and withdrawn, in closed batches and in
/// the open one.
fn total_limits<Rules: WriterRules + Copy>(
    calls: &[WriterCall],
    amount: u128,
    rules: Rules,
) -> Result<(), String> {
    for (missing, payment) in [(amount + 1, "OK"), (amount, "NO 23 3 0")] {
        for [closed, open] in divisions(CENTS_LIMIT - missing) {
            for (closed, open) in divisions(closed).into_iter().zip(divisions(open)) {
                let [closed, open] = [closed, open].map(|parts| {
                    let [live, withdrawn] = parts.map(cents_alone);
                    Totals { live, withdrawn }
                });
                let said = answer_behind(calls, 2, rules, |state| {
                    state.totals = closed;
                    set_batch(state, open);
                });
                demand(said == payment, "23")?;
            }
        }
    }
    Ok(())
}

/// A number in two parts: all in one of them, or some in both.
fn divisions(whole: u128) -> [[u128; 2]; 4] {
    let half = whole / 2;
    let few = whole.min(1);
    [
        [whole, 0],
        [0, whole],
        [half, whole - half],
        [few, whole - few],
    ]
}

fn payments_alone(payments: u128) -> Share {
    Share {
        payments: payments as u64,
        cents: 0,
    }
}

fn cents_alone(cents: u128) -> Share {
    Share { payments: 0, cents }
}

/// The claims notice a writer that goes by live payments only, or by withdrawn
/// ones, and one that asks for other room than a batch needs: no script is long
/// enough to show it.
fn mistaken_limits(random: &mut Random) -> Result<(), String> {
    for (name, fault) in writer_limit_faults() {
        let noticed = limits(random, Sown::with(fault)).is_err();
        demand(noticed, &format!("fault {name}"))?;
    }
    Ok(())
}

/// The answer to a call of a file, the state being changed before it.
pub fn answer_behind<Rules: WriterRules>(
    calls: &[WriterCall],
    at: usize,
    rules: Rules,
    change: impl Fn(&mut State),
) -> String {
    let mut output = Output::of(ROOM);
    let mut writer = Writer::by(rules);
    for call in &calls[..at] {
        writer.call(call, &mut output);
    }
    change(&mut writer.state);
    writer.call(&calls[at], &mut output).to_string()
}

fn set_batch(state: &mut State, totals: Totals) {
    if let Stage::InBatch(batch) = &mut state.stage {
        batch.totals = totals;
    }
}

fn demand(holds: bool, claim: &str) -> Result<(), String> {
    if holds {
        return Ok(());
    }
    Err(format!("{claim}: not as document 01 says"))
}
