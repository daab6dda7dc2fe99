//! The requests about live and withdrawn payments: every mix of them in every
//! shape of file, with instruction codes that might mislead, and trailers that
//! go by one of the two alone.

use crate::asking::probe::Request;
use crate::cases::file_cases::FileCases;
use crate::making::good_files::{file_of, put_amount, BatchShape, MadeFile};
use crate::making::movements::{all_mixes, put_movement};
use crate::making::random::Random;
use crate::paper::file_state::{BatchKind, BATCH_KINDS};
use crate::paper::payments::{payments_of, totals_of};
use crate::paper::places::{self, BATCH_RECORDS, BATCH_SUM};
use crate::paper::record_kinds::{Direction, RecordKind, DIRECTIONS};
use crate::paper::totals::{Movement, Share, Totals};
use crate::paper::writer_fill::BOTH_ENDS;

const MOST_PAYMENTS: usize = 3;
/// Of each of two batches.
const MOST_PAYMENTS_OF_TWO: usize = 2;
const FILES_OF_MANY_BATCHES: usize = 30;
const MOST_BATCHES: usize = 5;
const LARGEST_ORDINARY_AMOUNT: usize = 99_999_999;

/// The payments of a batch, live and withdrawn.
pub struct MixedBatch {
    pub kind: BatchKind,
    pub movements: Vec<Movement>,
}

pub fn requests(random: &mut Random) -> Vec<Request> {
    let mut cases = FileCases::new(random);
    for direction in DIRECTIONS {
        for mix in mixed_batches() {
            cases.ask_mix(direction, &[&mix]);
            cases.ask_refused_beside(direction, &mix);
            cases.ask_wrong_trailers(direction, &[&mix]);
        }
        for (first, second) in pairs_of_mixed_batches() {
            cases.ask_mix(direction, &[&first, &second]);
            cases.ask_wrong_trailers(direction, &[&first, &second]);
        }
        for _ in 0..FILES_OF_MANY_BATCHES {
            cases.ask_many_batches(direction);
        }
    }
    cases.requests
}

/// Every mix of few payments, of credits or of boletos.
pub fn mixed_batches() -> Vec<MixedBatch> {
    mixed_batches_up_to(MOST_PAYMENTS)
}

fn mixed_batches_up_to(most: usize) -> Vec<MixedBatch> {
    let mut mixes = Vec::new();
    for kind in BATCH_KINDS {
        for movements in (1..=most).flat_map(all_mixes) {
            mixes.push(MixedBatch { kind, movements });
        }
    }
    mixes
}

pub fn pairs_of_mixed_batches() -> Vec<(MixedBatch, MixedBatch)> {
    let firsts = mixed_batches_up_to(MOST_PAYMENTS_OF_TWO).into_iter();
    let pairs = firsts.flat_map(|first| {
        let seconds = mixed_batches_up_to(MOST_PAYMENTS_OF_TWO).into_iter();
        seconds.map(move |second| {
            let (kind, movements) = (first.kind, first.movements.clone());
            (MixedBatch { kind, movements }, second)
        })
    });
    pairs.collect()
}

/// A file of these batches, with any amounts and instructions.
pub fn mixed_file(random: &mut Random, direction: Direction, batches: &[&MixedBatch]) -> MadeFile {
    let shapes = batches.iter().map(|mix| BatchShape {
        kind: mix.kind,
        payments: mix.movements.len(),
    });
    let shapes: Vec<BatchShape> = shapes.collect();
    let mut file = file_of(random, direction, &shapes);
    let movements = batches.iter().flat_map(|mix| mix.movements.clone());
    file.put_movements(&movements.collect::<Vec<Movement>>());
    file
}

/// The same with an amount in every payment, each of which might be taken for
/// the other.
pub fn misleading_file(
    random: &mut Random,
    direction: Direction,
    batches: &[&MixedBatch],
) -> MadeFile {
    let mut file = mixed_file(random, direction, batches);
    for at in file.payments() {
        let cents = random.between(1, LARGEST_ORDINARY_AMOUNT) as u64;
        put_amount(&mut file.lines[at], cents);
    }
    file.mislead(random);
    file.renumber();
    file
}

impl FileCases<'_> {
    fn ask_mix(&mut self, direction: Direction, batches: &[&MixedBatch]) {
        for make in [mixed_file, misleading_file] {
            let file = make(self.random, direction, batches);
            self.ask_file(file.bytes());
            self.ask_calls(&file.calls());
        }
    }

    /// Each payment is given before in vain, live where it is withdrawn and the
    /// other way round: what is refused leaves the totals.
    fn ask_refused_beside(&mut self, direction: Direction, mix: &MixedBatch) {
        let file = misleading_file(self.random, direction, &[mix]);
        let mut calls = Vec::new();
        for line in &file.lines {
            if let Some(amount) = places::amount(line.kind) {
                let mut refused = line.bytes.clone();
                put_movement(&mut refused, Movement::of(&line.bytes).other());
                refused[amount.last - 1] = b' ';
                calls.push(refused);
            }
            calls.push(line.bytes.clone());
        }
        self.ask_calls(&calls);
    }

    /// The last trailer counts or sums live payments only, or withdrawn ones.
    fn ask_wrong_trailers(&mut self, direction: Direction, batches: &[&MixedBatch]) {
        let file = misleading_file(self.random, direction, batches);
        let lines = file.lines.iter().map(|line| line.bytes.as_slice());
        let mut payments = payments_of(lines);
        payments.retain(|payment| payment.batch == batches.len());
        let Totals { live, withdrawn } = totals_of(&payments);
        let first = payments[0].kind;
        for share in [live, withdrawn] {
            self.ask_with_trailer(&file, |line| put_sum(line, share));
            self.ask_with_trailer(&file, |line| put_count(line, first, share));
        }
        self.ask_file(file.bytes());
    }

    fn ask_with_trailer(&mut self, file: &MadeFile, change: impl Fn(&mut [u8])) {
        let mut file = file.clone();
        if let Some(last) = file.positions(RecordKind::BatchTrailer).last() {
            change(&mut file.lines[*last].bytes);
        }
        self.ask_file(file.bytes());
    }

    /// Batches all live, all withdrawn and mixed, one behind the other.
    fn ask_many_batches(&mut self, direction: Direction) {
        let mixes = mixed_batches();
        let batches = (0..self.random.between(3, MOST_BATCHES))
            .map(|_| &mixes[self.random.below(mixes.len())]);
        let batches: Vec<&MixedBatch> = batches.collect();
        self.ask_mix(direction, &batches);
    }
}

fn put_sum(line: &mut [u8], share: Share) {
    BATCH_SUM.put_number(line, share.cents);
}

fn put_count(line: &mut [u8], first: RecordKind, share: Share) {
    BATCH_RECORDS.put_number(line, u128::from(records_of(first, share)));
}

/// What a trailer without regard to Z counts for these payments, which begin with
/// records of this kind.
pub fn records_of(first: RecordKind, share: Share) -> u64 {
    let batch = BatchKind::with_record(first);
    let records = batch.map_or(0, |batch| batch.payment_kinds().len());
    records as u64 * share.payments + BOTH_ENDS
}
