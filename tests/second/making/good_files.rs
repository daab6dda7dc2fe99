//! Good files made at random, of every shape that document 01 allows.

use crate::making::due_dates::any_due_date;
use crate::making::good_codes::any_code;
use crate::making::good_records::good_record;
use crate::making::numbering::Numbering;
use crate::making::random::Random;
use crate::making::registrations::put_right_numbers;
use crate::paper::digit_strings::DigitRules;
use crate::paper::due_factors::DueFactors;
use crate::paper::file_state::{BatchKind, BATCH_KINDS};
use crate::paper::guarded_places::LineOfFile;
use crate::paper::layout_table::{BOLETO_FORMS, CREDIT_FORMS, CREDIT_SERVICE};
use crate::paper::layout_table::{COLLECTION_FORM, COLLECTION_SERVICE};
use crate::paper::lines::CENTS_LIMIT;
use crate::paper::places::{
    self, AMOUNT_OF_A, AMOUNT_OF_J, AMOUNT_OF_O, BANK, BARCODE, BARCODE_CENTS, BARCODE_CHECK, CODE,
    DIRECTION, DISCOUNT, DUE, FACTOR, FINE, NOMINAL, SERVICE_AND_FORM,
};
use crate::paper::record_kinds::{Direction, RecordKind, Subject, DIRECTIONS};
use crate::paper::Paper;

pub const LARGEST_AMOUNT: u64 = 999_999_999_999_999;
/// So many payments of the largest amount leave 10^18 by a thousand cents.
pub const LARGEST_PAYMENTS: u64 = 1_000;
pub const MISSING_CENTS: u64 = CENTS_LIMIT as u64 - LARGEST_PAYMENTS * LARGEST_AMOUNT;
/// The barcode has ten digits for the cents.
pub const LARGEST_BARCODE_CENTS: u64 = 9_999_999_999;
const NO_FACTOR_ONCE_IN: usize = 5;

const MOST_BATCHES: usize = 3;
const MOST_PAYMENTS: usize = 3;
/// One batch and one payment are as common as all else.
const SEVERAL_ONCE_IN: usize = 2;

#[derive(Clone)]
pub struct MadeLine {
    pub kind: RecordKind,
    pub bytes: Vec<u8>,
}

#[derive(Clone)]
pub struct MadeFile {
    pub direction: Direction,
    pub lines: Vec<MadeLine>,
}

impl MadeFile {
    pub fn bytes(&self) -> Vec<u8> {
        let lines = self.lines.iter();
        lines.flat_map(|line| line.bytes.clone()).collect()
    }

    pub fn calls(&self) -> Vec<Vec<u8>> {
        let lines = self.lines.iter();
        lines.map(|line| line.bytes.clone()).collect()
    }

    /// Makes numbers, counts and sums follow from the lines as they are now.
    pub fn renumber(&mut self) {
        let bank = match self.lines.first() {
            Some(line) => BANK.of(&line.bytes).to_vec(),
            None => return,
        };
        let mut numbering = Numbering::of_bank(&bank);
        for line in &mut self.lines {
            let record = std::mem::take(&mut line.bytes);
            line.bytes = numbering.next_line(line.kind, record);
        }
    }

    /// With what its guarded places depend on.
    pub fn line_at(&self, at: usize) -> LineOfFile<'_> {
        let before = at.checked_sub(1).map(|before| self.lines[before].kind);
        LineOfFile {
            kind: self.lines[at].kind,
            bytes: &self.lines[at].bytes,
            direction: self.direction,
            before,
        }
    }

    /// Where the lines of a kind stand.
    pub fn positions(&self, kind: RecordKind) -> Vec<usize> {
        let lines = self.lines.iter().enumerate();
        let of_kind = lines.filter(|(_, line)| line.kind == kind);
        of_kind.map(|(at, _)| at).collect()
    }
}

pub struct BatchShape {
    pub kind: BatchKind,
    pub payments: usize,
}

pub fn any_file(random: &mut Random) -> MadeFile {
    let direction = random.pick(&DIRECTIONS);
    let batches = few(random, MOST_BATCHES);
    let shapes: Vec<BatchShape> = (0..batches)
        .map(|_| BatchShape {
            kind: random.pick(&BATCH_KINDS),
            payments: few(random, MOST_PAYMENTS),
        })
        .collect();
    file_of(random, direction, &shapes)
}

fn few(random: &mut Random, most: usize) -> usize {
    if random.below(SEVERAL_ONCE_IN) == 0 {
        random.between(1, most)
    } else {
        1
    }
}

pub fn file_of(random: &mut Random, direction: Direction, batches: &[BatchShape]) -> MadeFile {
    let lines = Vec::new();
    let file = MadeFile { direction, lines };
    let mut maker = FileMaker { random, file };
    maker.add(RecordKind::FileHeader);
    for batch in batches {
        maker.add_batch(batch);
    }
    maker.add(RecordKind::FileTrailer);
    maker.file.renumber();
    maker.file
}

struct FileMaker<'a> {
    random: &'a mut Random,
    file: MadeFile,
}

impl FileMaker<'_> {
    fn add(&mut self, kind: RecordKind) {
        let bytes = record_for_a_file(self.random, kind, self.file.direction);
        self.file.lines.push(MadeLine { kind, bytes });
    }

    fn add_batch(&mut self, batch: &BatchShape) {
        self.add(RecordKind::BatchHeader);
        let pair = good_pair(self.random, batch.kind, self.file.direction);
        if let Some(header) = self.file.lines.last_mut() {
            SERVICE_AND_FORM.put(&mut header.bytes, &pair);
        }
        for _ in 0..batch.payments {
            for kind in batch.kind.payment_kinds() {
                self.add(*kind);
            }
            if self.file.direction == Direction::Return && self.random.coin() {
                self.add(RecordKind::Z);
            }
        }
        self.add(RecordKind::BatchTrailer);
    }
}

/// Service and form.
pub fn good_pair(random: &mut Random, kind: BatchKind, direction: Direction) -> Vec<u8> {
    match kind {
        BatchKind::Credit => [CREDIT_SERVICE, random.pick(&CREDIT_FORMS)].concat(),
        BatchKind::Boleto => [direction.boleto_service(), random.pick(&BOLETO_FORMS)].concat(),
        BatchKind::Collection => [COLLECTION_SERVICE, COLLECTION_FORM].concat(),
    }
}

/// A good record that also keeps the rules over its fields; what follows from
/// other lines is still to be filled in.
pub fn record_for_a_file(random: &mut Random, kind: RecordKind, direction: Direction) -> Vec<u8> {
    let mut record = good_record(random, Subject { kind, direction });
    put_right_numbers(random, kind, &mut record);
    match kind {
        RecordKind::FileHeader => DIRECTION.put(&mut record, &[direction.code()]),
        RecordKind::A => AMOUNT_OF_A.put_number(&mut record, u128::from(any_amount(random))),
        RecordKind::J => make_boleto(random, &mut record),
        RecordKind::O => {
            CODE.put(&mut record, &any_code(random));
            AMOUNT_OF_O.put_number(&mut record, u128::from(any_amount(random)));
        }
        _ => {}
    }
    record
}

fn any_amount(random: &mut Random) -> u64 {
    match random.below(6) {
        0 => 0,
        1 => random.between(1, 999) as u64,
        2 => 10_000,
        3 => between(random, 1, LARGEST_BARCODE_CENTS),
        4 => between(random, LARGEST_BARCODE_CENTS, LARGEST_AMOUNT),
        _ => LARGEST_AMOUNT,
    }
}

fn between(random: &mut Random, first: u64, last: u64) -> u64 {
    random.between(first as usize, last as usize) as u64
}

/// Nominal and fine may be more than an amount can be, and then the discount
/// has to bring it down.
fn make_boleto(random: &mut Random, record: &mut [u8]) {
    let nominal = any_amount(random);
    let fine = random.pick(&[0, 0, 250]) + if random.coin() { 0 } else { any_amount(random) };
    let fine = fine.min(LARGEST_AMOUNT);
    let gross = nominal + fine;
    let least_discount = gross.saturating_sub(LARGEST_AMOUNT);
    let most_discount = gross.min(LARGEST_AMOUNT);
    let discount = match random.below(3) {
        0 => least_discount,
        1 => most_discount,
        _ => between(random, least_discount, most_discount),
    };
    for (part, number) in [
        (NOMINAL, nominal),
        (FINE, fine),
        (DISCOUNT, discount),
        (AMOUNT_OF_J, gross - discount),
    ] {
        part.put_number(record, u128::from(number));
    }
    make_barcode(random, record, nominal);
}

/// A barcode without a factor goes with whatever due date the record has.
fn make_barcode(random: &mut Random, record: &mut [u8], nominal: u64) {
    let factor = match random.below(NO_FACTOR_ONCE_IN) {
        0 => None,
        _ => {
            let due = any_due_date(random);
            DUE.put(record, &due);
            Paper.factor_of(&due)
        }
    };
    let fits = nominal <= LARGEST_BARCODE_CENTS;
    let cents = if fits && random.coin() { nominal } else { 0 };
    BARCODE_CENTS.put_number(record, u128::from(cents));
    put_factor(record, factor.unwrap_or(0));
}

/// The barcode's check is made right for it.
pub fn put_factor(record: &mut [u8], factor: u32) {
    FACTOR.put_number(record, u128::from(factor));
    put_general_check(record);
}

/// Makes the general check right for the other digits of the barcode.
pub fn put_general_check(record: &mut [u8]) {
    let check = Paper.general_check(BARCODE.of(record));
    BARCODE_CHECK.put(record, &[check]);
}

/// Gives a payment's first record an amount without discount and fine.
pub fn put_amount(line: &mut MadeLine, cents: u64) {
    let record = &mut line.bytes;
    if line.kind == RecordKind::J {
        NOMINAL.put_number(record, u128::from(cents));
        for part in [DISCOUNT, FINE, BARCODE_CENTS] {
            part.put_number(record, 0);
        }
        put_general_check(record);
    }
    if let Some(amount) = places::amount(line.kind) {
        amount.put_number(record, u128::from(cents));
    }
}
