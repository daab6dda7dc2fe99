//! What the line checker of document 01 knows between two lines, and the writer
//! between two calls.

use super::record_kinds::{Direction, RecordKind};
use super::totals::Totals;

#[derive(Clone, Copy, PartialEq, Eq)]
pub enum BatchKind {
    Credit,
    Boleto,
    /// Of O records.
    Collection,
}

pub const BATCH_KINDS: [BatchKind; 3] =
    [BatchKind::Credit, BatchKind::Boleto, BatchKind::Collection];

impl BatchKind {
    /// The records of each payment, but for a Z behind them.
    pub fn payment_kinds(self) -> &'static [RecordKind] {
        match self {
            BatchKind::Credit => &[RecordKind::A, RecordKind::B],
            BatchKind::Boleto => &[RecordKind::J, RecordKind::J52],
            BatchKind::Collection => &[RecordKind::O],
        }
    }

    pub fn first_kind(self) -> RecordKind {
        self.payment_kinds()[0]
    }

    /// The kind of batch with records of this kind; trailers, headers and Z are in
    /// all of them.
    pub fn with_record(kind: RecordKind) -> Option<BatchKind> {
        let mut kinds = BATCH_KINDS.into_iter();
        kinds.find(|batch| batch.payment_kinds().contains(&kind))
    }
}

/// The last line of a batch that was accepted.
#[derive(Clone, Copy, PartialEq, Eq)]
pub enum Last {
    Header,
    /// A or J: another record is due.
    FirstRecord,
    /// B, J52 or O: the payment is whole.
    LastRecord,
    Z,
}

#[derive(Clone)]
pub struct Batch {
    pub kind: BatchKind,
    pub last: Last,
    pub details: u64,
    pub totals: Totals,
}

impl Batch {
    pub fn opened(kind: BatchKind) -> Batch {
        Batch {
            kind,
            last: Last::Header,
            details: 0,
            totals: Totals::default(),
        }
    }

    /// Whether the last payment may be followed by something else than its
    /// second record. No record is due inside an O payment.
    pub fn has_whole_payment(&self) -> bool {
        self.last == Last::LastRecord || self.last == Last::Z
    }
}

#[derive(Clone)]
pub enum Stage {
    Start,
    BetweenBatches,
    InBatch(Batch),
    Ended,
}

#[derive(Clone)]
pub struct State {
    pub stage: Stage,
    pub accepted_lines: u64,
    pub bank: Vec<u8>,
    pub direction: Direction,
    /// The open one included.
    pub batches: u64,
    /// Of closed batches only.
    pub totals: Totals,
}

impl State {
    pub fn at_start() -> State {
        State {
            stage: Stage::Start,
            accepted_lines: 0,
            bank: Vec::new(),
            direction: Direction::Remittance,
            batches: 0,
            totals: Totals::default(),
        }
    }

    pub fn batch(&self) -> Option<&Batch> {
        match &self.stage {
            Stage::InBatch(batch) => Some(batch),
            _ => None,
        }
    }

    pub fn has_ended(&self) -> bool {
        matches!(self.stage, Stage::Ended)
    }

    /// What an acceptance says of a file that has ended: batches and records,
    /// live payments and their cents, withdrawn payments and theirs.
    pub fn accepted_numbers(&self) -> [u64; 6] {
        let Totals { live, withdrawn } = self.totals;
        [
            self.batches,
            self.accepted_lines,
            live.payments,
            live.cents as u64,
            withdrawn.payments,
            withdrawn.cents as u64,
        ]
    }
}
