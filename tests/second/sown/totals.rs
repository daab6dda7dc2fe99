//! Mistakes about live and withdrawn payments in what an acceptance says. Reader
//! and writer can make each of them: the numbers are counted again, by mistake,
//! from the records of the accepted file.

use super::names::fault_list;
use crate::paper::lines::LINE_BYTES;
use crate::paper::payments::{payments_of, totals_of, Payment};
use crate::paper::places::{part, Part, DIRECTION, MOVEMENT, NOMINAL};
use crate::paper::record_kinds::RecordKind;
use crate::paper::totals::{Movement, Share};

fault_list! {
    TotalsFault, TOTALS_FAULTS,
    // How a withdrawn payment is told.
    NoneWithdrawn,
    ToldByInstruction,
    ToldByInstruction99,
    ToldByPlace16,
    ToldByPlace17,
    InstructionToldToo,
    MovementOrInstruction,
    CreditsNeverWithdrawn,
    BoletosNeverWithdrawn,
    CollectionsNeverWithdrawn,
    RemittancesWithoutWithdrawn,
    ReturnsWithoutWithdrawn,
    ToldByAnyRecord,
    ToldByTheLastRecord,
    MovementOfThePaymentBefore,
    FirstPaymentNeverWithdrawn,
    LastPaymentNeverWithdrawn,
    WithdrawnToTheEndOfTheBatch,
    WithdrawnToTheEndOfTheFile,
    FirstMovementDecidesForTheBatch,
    LastMovementDecidesForTheBatch,
    OneWithdrawnDecidesForTheBatch,
    OneLiveDecidesForTheBatch,
    FirstMovementDecidesForTheFile,
    LastMovementDecidesForTheFile,
    // What is added up.
    LiveIsTheWhole,
    LivePaymentsAreTheWhole,
    LiveCentsAreTheWhole,
    WithdrawnIsTheWhole,
    WithdrawnPaymentsLeftOut,
    WithdrawnCentsLeftOut,
    WithdrawnCentsTakenOff,
    WithdrawnCountedInRecords,
    WithdrawnRecordsLeftOut,
    WithdrawnWithoutCentsNotCounted,
    WithdrawnNominalSummed,
    CollectionsNotCounted,
    CollectionCentsLeftOut,
    WithdrawnCentsIn32Bits,
    LiveCentsIn32Bits,
    WithdrawnPaymentsIn8Bits,
    TotalsOfTheFirstBatch,
    TotalsOfTheLastBatch,
    LiveOfTheLastBatch,
    WithdrawnOfTheFirstBatch,
    WithdrawnOfTheLastBatch,
    RefusedWithdrawnCounted,
    // What is said of it.
    NumbersOfDocument01,
    WithdrawnNotSaid,
    WithdrawnSaidOnlyIfThereIsOne,
    LiveAndWithdrawnSwapped,
    PaymentsBeforeCents,
}

/// Instructions that say 'included' and 'excluded'; neither has a say.
const INCLUDED: &[u8] = b"00";
const EXCLUDED: &[u8] = b"99";
const PLACE_16: Part = part(16, 16);
const PLACE_17: Part = part(17, 17);
const NINE: &[u8] = b"9";

/// A file that was accepted, and how a mistaken count sees it.
pub struct Miscount<'a> {
    fault: TotalsFault,
    is_return: bool,
    payments: Vec<Payment<'a>>,
    /// So many withdrawn payments were refused on the way.
    refused: u64,
}

impl Miscount<'_> {
    pub fn of(fault: TotalsFault, file: &[u8], refused: u64) -> Miscount<'_> {
        Miscount {
            fault,
            is_return: DIRECTION.of(file) == b"2",
            payments: payments_of(file.chunks(LINE_BYTES)),
            refused,
        }
    }

    /// What is said instead of the six numbers that are right.
    pub fn numbers(&self, right: &[u64]) -> Vec<u64> {
        let told = self.payments.iter().zip(self.withdrawn_ones());
        let (withdrawn, live): (Vec<_>, Vec<_>) = told.partition(|(_, told)| *told);
        let [live, withdrawn] = [live, withdrawn].map(|side| {
            let payments = side.into_iter().map(|(payment, _)| payment);
            payments.collect::<Vec<&Payment>>()
        });
        let left_out = match self.fault {
            TotalsFault::WithdrawnRecordsLeftOut => records_of(&withdrawn),
            _ => 0,
        };
        let batches_and_records = right.iter().zip([0, left_out]);
        let batches_and_records = batches_and_records.map(|(right, left_out)| right - left_out);
        let shares = self.said(self.live(&live, &withdrawn), self.withdrawn(&withdrawn));
        batches_and_records.chain(shares).collect()
    }

    fn whole(&self) -> Share {
        let totals = totals_of(&self.payments);
        Share {
            payments: totals.payments(),
            cents: totals.cents(),
        }
    }

    /// Which of the payments are taken for withdrawn.
    fn withdrawn_ones(&self) -> Vec<bool> {
        let payments = self.payments.iter();
        let right: Vec<bool> = payments.clone().map(is_withdrawn).collect();
        let told = |by: &dyn Fn(&Payment) -> bool| payments.clone().map(by).collect();
        let last = right.len().saturating_sub(1);
        match self.fault {
            TotalsFault::NoneWithdrawn => vec![false; right.len()],
            TotalsFault::ToldByInstruction => told(&|p| p.instruction() != INCLUDED),
            TotalsFault::ToldByInstruction99 => told(&|p| p.instruction() == EXCLUDED),
            TotalsFault::ToldByPlace16 => told(&|p| PLACE_16.of(p.records[0]) == NINE),
            TotalsFault::ToldByPlace17 => told(&|p| PLACE_17.of(p.records[0]) == NINE),
            TotalsFault::InstructionToldToo => {
                told(&|p| is_withdrawn(p) && p.instruction() == EXCLUDED)
            }
            TotalsFault::MovementOrInstruction => {
                told(&|p| is_withdrawn(p) || p.instruction() == EXCLUDED)
            }
            TotalsFault::CreditsNeverWithdrawn => {
                told(&|p| is_withdrawn(p) && p.kind != RecordKind::A)
            }
            TotalsFault::BoletosNeverWithdrawn => {
                told(&|p| is_withdrawn(p) && p.kind != RecordKind::J)
            }
            TotalsFault::CollectionsNeverWithdrawn => {
                told(&|p| is_withdrawn(p) && p.kind != RecordKind::O)
            }
            TotalsFault::RemittancesWithoutWithdrawn => {
                told(&|p| is_withdrawn(p) && self.is_return)
            }
            TotalsFault::ReturnsWithoutWithdrawn => told(&|p| is_withdrawn(p) && !self.is_return),
            TotalsFault::ToldByAnyRecord => {
                told(&|p| p.records.iter().any(|record| MOVEMENT.of(record) == NINE))
            }
            TotalsFault::ToldByTheLastRecord => {
                told(&|p| p.records.last().map(|record| MOVEMENT.of(record)) == Some(NINE))
            }
            TotalsFault::MovementOfThePaymentBefore => {
                let before = [false].iter().chain(&right).copied();
                before.take(right.len()).collect()
            }
            TotalsFault::FirstPaymentNeverWithdrawn => {
                let numbered = right.iter().enumerate();
                numbered.map(|(at, right)| *right && at > 0).collect()
            }
            TotalsFault::LastPaymentNeverWithdrawn => {
                let numbered = right.iter().enumerate();
                numbered.map(|(at, right)| *right && at < last).collect()
            }
            _ => self.decided_for_others(),
        }
    }

    /// Where the movement of one payment decides for others, in its batch or in
    /// the whole file.
    fn decided_for_others(&self) -> Vec<bool> {
        match self.fault {
            TotalsFault::WithdrawnToTheEndOfTheFile
            | TotalsFault::FirstMovementDecidesForTheFile
            | TotalsFault::LastMovementDecidesForTheFile => self.decided_among(&self.payments),
            _ => {
                let same_batch = |one: &Payment, next: &Payment| one.batch == next.batch;
                let batches = self.payments.chunk_by(same_batch);
                batches
                    .flat_map(|batch| self.decided_among(batch))
                    .collect()
            }
        }
    }

    fn decided_among(&self, payments: &[Payment]) -> Vec<bool> {
        let right: Vec<bool> = payments.iter().map(is_withdrawn).collect();
        let told = (0..right.len()).map(|at| match self.fault {
            TotalsFault::WithdrawnToTheEndOfTheBatch | TotalsFault::WithdrawnToTheEndOfTheFile => {
                right[..=at].contains(&true)
            }
            TotalsFault::FirstMovementDecidesForTheBatch
            | TotalsFault::FirstMovementDecidesForTheFile => right[0],
            TotalsFault::LastMovementDecidesForTheBatch
            | TotalsFault::LastMovementDecidesForTheFile => right[right.len() - 1],
            TotalsFault::OneWithdrawnDecidesForTheBatch => right.contains(&true),
            TotalsFault::OneLiveDecidesForTheBatch => !right.contains(&false),
            _ => right[at],
        });
        told.collect()
    }

    fn live(&self, live: &[&Payment], withdrawn: &[&Payment]) -> Share {
        let (right, whole) = (share_of(live), self.whole());
        match self.fault {
            TotalsFault::CollectionsNotCounted => without_collections(live),
            TotalsFault::CollectionCentsLeftOut => Share {
                cents: without_collections(live).cents,
                ..right
            },
            TotalsFault::LiveIsTheWhole | TotalsFault::NumbersOfDocument01 => whole,
            TotalsFault::LivePaymentsAreTheWhole => Share {
                payments: whole.payments,
                ..right
            },
            TotalsFault::LiveCentsAreTheWhole => Share {
                cents: whole.cents,
                ..right
            },
            TotalsFault::WithdrawnCentsTakenOff => Share {
                cents: right.cents.saturating_sub(share_of(withdrawn).cents),
                ..right
            },
            TotalsFault::LiveCentsIn32Bits => Share {
                cents: u128::from(right.cents as u32),
                ..right
            },
            TotalsFault::TotalsOfTheFirstBatch => self.share_in(live, 1),
            TotalsFault::TotalsOfTheLastBatch | TotalsFault::LiveOfTheLastBatch => {
                self.share_in(live, self.batches())
            }
            _ => right,
        }
    }

    fn withdrawn(&self, withdrawn: &[&Payment]) -> Share {
        let right = share_of(withdrawn);
        let (mut payments, mut cents) = (right.payments, right.cents);
        match self.fault {
            TotalsFault::WithdrawnIsTheWhole => return self.whole(),
            TotalsFault::TotalsOfTheFirstBatch | TotalsFault::WithdrawnOfTheFirstBatch => {
                return self.share_in(withdrawn, 1);
            }
            TotalsFault::TotalsOfTheLastBatch | TotalsFault::WithdrawnOfTheLastBatch => {
                return self.share_in(withdrawn, self.batches());
            }
            TotalsFault::WithdrawnPaymentsLeftOut => payments = 0,
            TotalsFault::WithdrawnCentsLeftOut => cents = 0,
            TotalsFault::WithdrawnCountedInRecords => payments = records_of(withdrawn),
            TotalsFault::WithdrawnWithoutCentsNotCounted => {
                let counted = withdrawn.iter().filter(|payment| payment.cents() > 0);
                payments = counted.count() as u64;
            }
            TotalsFault::WithdrawnNominalSummed => {
                let nominals = withdrawn.iter().map(|payment| nominal_or_cents(payment));
                cents = nominals.sum();
            }
            TotalsFault::WithdrawnCentsIn32Bits => cents = u128::from(cents as u32),
            TotalsFault::WithdrawnPaymentsIn8Bits => payments = u64::from(payments as u8),
            TotalsFault::RefusedWithdrawnCounted => payments += self.refused,
            _ => {}
        }
        Share { payments, cents }
    }

    fn batches(&self) -> usize {
        self.payments.last().map_or(0, |payment| payment.batch)
    }

    fn share_in(&self, payments: &[&Payment], batch: usize) -> Share {
        let mut of_batch = payments.to_vec();
        of_batch.retain(|payment| payment.batch == batch);
        share_of(&of_batch)
    }

    /// The numbers behind batches and records.
    fn said(&self, live: Share, withdrawn: Share) -> Vec<u64> {
        let [live_payments, live_cents] = [live.payments, live.cents as u64];
        let [payments, cents] = [withdrawn.payments, withdrawn.cents as u64];
        match self.fault {
            TotalsFault::NumbersOfDocument01 | TotalsFault::WithdrawnNotSaid => {
                vec![live_payments, live_cents]
            }
            TotalsFault::WithdrawnSaidOnlyIfThereIsOne if payments == 0 => {
                vec![live_payments, live_cents]
            }
            TotalsFault::LiveAndWithdrawnSwapped => {
                vec![payments, cents, live_payments, live_cents]
            }
            TotalsFault::PaymentsBeforeCents => vec![live_payments, payments, live_cents, cents],
            _ => vec![live_payments, live_cents, payments, cents],
        }
    }
}

fn is_withdrawn(payment: &Payment) -> bool {
    payment.movement() == Movement::Withdrawn
}

fn share_of(payments: &[&Payment]) -> Share {
    Share {
        payments: payments.len() as u64,
        cents: payments.iter().map(|p| u128::from(p.cents())).sum(),
    }
}

fn without_collections(payments: &[&Payment]) -> Share {
    let mut others = payments.to_vec();
    others.retain(|payment| payment.kind != RecordKind::O);
    share_of(&others)
}

fn records_of(payments: &[&Payment]) -> u64 {
    let records = payments.iter().map(|payment| payment.records.len());
    records.sum::<usize>() as u64
}

fn nominal_or_cents(payment: &Payment) -> u128 {
    u128::from(match payment.kind {
        RecordKind::J => payment.number(NOMINAL),
        _ => payment.cents(),
    })
}
