//! How the files at the limits of document 01 are written, line by line.

use std::io;

use crate::making::due_dates::DueDate;
use crate::making::good_files::{put_factor, LARGEST_AMOUNT, LARGEST_PAYMENTS};
use crate::making::movements::put_movement;
use crate::making::plain_files::{PlainFile, HUNDRED};
use crate::making::plain_records::{self, Bill, PAYEES};
use crate::paper::file_state::BatchKind;
use crate::paper::lines::LINE_BYTES;
use crate::paper::places::DUE;
use crate::paper::record_kinds::{Direction, RecordKind};
use crate::paper::totals::Movement::{self, Live};

/// So many payments make a file of 270 lines, which is 65,340 bytes.
pub const PAYMENTS_IN_270_LINES: u64 = 133;
pub const BYTES_OF_270_LINES: usize = 270 * LINE_BYTES;
/// A file that is more than twice as long.
pub const MORE_PAYMENTS: u64 = 300;
pub const FULL_BILL: Bill = Bill {
    nominal: HUNDRED,
    discount: 0,
    fine: 0,
    due: None,
};
const DATE_OF_A: std::ops::Range<usize> = 93..101;

/// A file so far of so many batches of one payment each.
pub fn batches(out: &mut dyn io::Write, count: u64) -> io::Result<PlainFile<'_>> {
    let mut file = PlainFile::begin(out, Direction::Remittance)?;
    for _ in 0..count {
        add_batch(&mut file, 1)?;
    }
    Ok(file)
}

/// A credit batch of so many live payments of 100.00.
pub fn add_batch(file: &mut PlainFile, payments: u64) -> io::Result<()> {
    add_batch_of(file, Live, payments)
}

pub fn add_batch_of(file: &mut PlainFile, movement: Movement, payments: u64) -> io::Result<()> {
    file.open_batch(BatchKind::Credit)?;
    add_payments(file, movement, payments, HUNDRED)?;
    file.close_batch()
}

/// The records are made once, since a file may have very many of them.
pub fn add_payments(
    file: &mut PlainFile,
    movement: Movement,
    payments: u64,
    cents: u64,
) -> io::Result<()> {
    let records = credit_of(movement, cents);
    for _ in 0..payments {
        file.add_payment(records.clone())?;
    }
    Ok(())
}

fn credit_of(movement: Movement, cents: u64) -> [(RecordKind, Vec<u8>); 2] {
    let [(kind, mut first), second] = plain_records::credit_records(&PAYEES[0], 1, cents);
    put_movement(&mut first, movement);
    [(kind, first), second]
}

/// A file of one batch with so many payments, which have these movements in
/// turn.
pub fn payments_in_turn(
    out: &mut dyn io::Write,
    payments: usize,
    movements: &[Movement],
) -> io::Result<()> {
    let mut file = PlainFile::begin(out, Direction::Remittance)?;
    file.open_batch(BatchKind::Credit)?;
    for movement in movements.iter().cycle().take(payments) {
        file.add_payment(credit_of(*movement, HUNDRED))?;
    }
    file.close_batch()?;
    file.close()
}

/// A file so far of 10,000 payments, all live or all withdrawn, and one more
/// that is not.
pub fn payments_and_another(out: &mut dyn io::Write, movement: Movement) -> io::Result<()> {
    let mut file = PlainFile::begin(out, Direction::Remittance)?;
    file.open_batch(BatchKind::Credit)?;
    add_payments(&mut file, movement, 10_000, HUNDRED)?;
    add_payments(&mut file, movement.other(), 1, HUNDRED)
}

/// A file so far of 10,000 payments and the first record of one more, which is changed.
pub fn changed_payment(out: &mut dyn io::Write, change: fn(&mut [u8])) -> io::Result<()> {
    let mut file = PlainFile::begin(out, Direction::Remittance)?;
    file.open_batch(BatchKind::Credit)?;
    add_payments(&mut file, Live, 10_000, HUNDRED)?;
    let [(kind, record), _] = plain_records::credit_records(&PAYEES[0], 1, HUNDRED);
    file.add_changed(kind, record, change)
}

/// A file so far of one batch with so many payments of one record, and in a return a
/// Z behind the last.
pub fn many_collections(
    out: &mut dyn io::Write,
    direction: Direction,
    payments: u64,
) -> io::Result<PlainFile<'_>> {
    let mut file = PlainFile::begin(out, direction)?;
    file.open_batch(BatchKind::Collection)?;
    for _ in 0..payments {
        file.collection(0, HUNDRED)?;
    }
    if direction == Direction::Return {
        file.z()?;
    }
    file.close_batch()?;
    Ok(file)
}

/// A file of one batch.
pub fn one_batch(out: &mut dyn io::Write, payments: u64) -> io::Result<()> {
    let mut file = PlainFile::begin(out, Direction::Remittance)?;
    add_batch(&mut file, payments)?;
    file.close()
}

/// The largest amounts in both batches, each live or withdrawn as a whole, and
/// one more payment in the second.
pub fn two_batches(
    out: &mut dyn io::Write,
    [first, second]: [Movement; 2],
    last: u64,
) -> io::Result<()> {
    let mut file = PlainFile::begin(out, Direction::Remittance)?;
    file.open_batch(BatchKind::Credit)?;
    add_payments(&mut file, first, LARGEST_PAYMENTS / 2, LARGEST_AMOUNT)?;
    file.close_batch()?;
    file.open_batch(BatchKind::Credit)?;
    add_payments(&mut file, second, LARGEST_PAYMENTS / 2, LARGEST_AMOUNT)?;
    add_payments(&mut file, second, 1, last)?;
    file.close_batch()?;
    file.close()
}

/// A file of one payment with this date.
pub fn one_credit(out: &mut dyn io::Write, date: &[u8]) -> io::Result<()> {
    let [(_, mut first), second] = plain_records::credit_records(&PAYEES[0], 1, HUNDRED);
    first[DATE_OF_A].copy_from_slice(date);
    one_payment(out, BatchKind::Credit, [(RecordKind::A, first), second])
}

/// A file of one boleto of 100.00 with this due date and this factor, which
/// need not be its own.
pub fn one_due(out: &mut dyn io::Write, due: &DueDate, factor: u32) -> io::Result<()> {
    one_boleto(out, 0, |line| {
        DUE.put(line, due);
        put_factor(line, factor);
    })
}

/// A file of one boleto with nominal 100.00, no fine and no factor, whose J is
/// changed.
pub fn one_boleto(
    out: &mut dyn io::Write,
    discount: u64,
    change: impl Fn(&mut [u8]),
) -> io::Result<()> {
    let bill = Bill {
        discount,
        ..FULL_BILL
    };
    let [(_, mut first), second] = plain_records::boleto_records(&PAYEES[1], 1, bill);
    change(&mut first);
    one_payment(out, BatchKind::Boleto, [(RecordKind::J, first), second])
}

fn one_payment(
    out: &mut dyn io::Write,
    kind: BatchKind,
    records: [(RecordKind, Vec<u8>); 2],
) -> io::Result<()> {
    let mut file = PlainFile::begin(out, Direction::Remittance)?;
    file.open_batch(kind)?;
    file.add_payment(records)?;
    file.close_batch()?;
    file.close()
}

/// The first bytes of a file that is more than 65,341 bytes long.
pub fn cut(out: &mut dyn io::Write, bytes: usize) -> io::Result<()> {
    let mut whole = Vec::new();
    one_batch(&mut whole, MORE_PAYMENTS)?;
    out.write_all(&whole[..bytes])
}
