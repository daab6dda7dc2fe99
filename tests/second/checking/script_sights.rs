//! What can be seen in the scripts of a run.

use crate::asking::values::NoNumber;
use crate::asking::writer_script::Misfit;
use crate::cases::script_turn_cases::Standing;
use crate::checking::movement_tally::{Counted, Mix};
use crate::paper::file_state::BatchKind;
use crate::paper::record_kinds::{Direction, RecordKind};
use crate::paper::totals::Movement;

/// So far from what a call asks for is the room of note.
pub const MOST_BESIDE: isize = 3;

/// The parts of document 01's order of refusals.
#[derive(Clone, Copy, PartialEq, Eq, PartialOrd, Ord, Debug)]
pub enum Class {
    Turn,
    Limit,
    Byte,
    Kind,
    Field,
    Registration,
    Boleto,
    Code,
    Room,
}

/// Where two faults of one call are.
#[derive(Clone, Copy, PartialEq, Eq, PartialOrd, Ord, Debug)]
pub enum Distance {
    OneRecord,
    TwoRecords,
    /// At least one of them is about the call as a whole.
    Call,
}

/// Something seen in a script. Kinds of records, calls and directions are named
/// by their codes; numbers of records by their index.
#[derive(Clone, Copy, PartialEq, Eq, PartialOrd, Ord, Debug)]
pub enum Sight {
    OutOfTurn {
        standing: Standing,
        call: char,
    },
    /// A fault of a field, whose number is not too wide if it has one.
    Fault {
        number: u32,
        kind: char,
        place: usize,
    },
    TooWide {
        kind: char,
        index: usize,
    },
    /// Accepted, and as wide as the field.
    AllNines {
        kind: char,
        index: usize,
    },
    /// In the field that begins at the place.
    WrongByte {
        kind: char,
        place: usize,
    },
    /// In a call that is in turn.
    LargestNumber {
        kind: char,
        index: usize,
    },
    WrongKind {
        direction: char,
        first: char,
        position: usize,
        kind: char,
    },
    /// Accepted calls with a number, or with bytes outside 32-126, where the
    /// writer has its own.
    OtherNumberIgnored {
        kind: char,
        index: usize,
    },
    WideNumberIgnored {
        kind: char,
        index: usize,
    },
    WrongByteIgnored {
        kind: char,
        place: usize,
    },
    /// The bytes lent from the place reached, beside those that are asked for.
    LentBeside {
        call: char,
        records: usize,
        bytes: isize,
    },
    LentLessThanWritten {
        call: char,
    },
    LentMoreThanAll,
    /// The whole room beside a multiple of a line.
    RoomBeside {
        lines: usize,
        bytes: isize,
    },
    /// An accepted call with the records before it overwritten.
    Overwritten {
        call: char,
    },
    /// An accepted call straight behind a refusal.
    AcceptedBehind {
        number: u32,
    },
    TwoFaults {
        first: Class,
        second: Class,
        distance: Distance,
    },
    /// With batches of these kinds.
    Closed {
        direction: char,
        kinds: [bool; 3],
    },
    /// All batches are of one kind.
    ClosedWithZ {
        first: char,
    },
    ClosedWithBatches {
        batches: u64,
    },
    /// An accepted payment.
    Paid {
        direction: char,
        first: char,
        movement: Movement,
        has_z: bool,
    },
    /// Straight behind a refused one of the other movement.
    PaidInsteadOfTheOther {
        first: char,
        movement: Movement,
    },
    /// A batch that was closed.
    ClosedBatch {
        direction: char,
        first: char,
        mix: Mix,
    },
    /// What the close of the file has said.
    ClosedWithNumbers {
        counted: Counted,
    },
    NoCall,
    /// Whichever number it is that is none.
    NoNumber {
        reason: NoNumber,
    },
    NoScript {
        misfit: Misfit,
    },
}

impl Sight {
    pub fn of_misfit(misfit: Misfit) -> Sight {
        match misfit {
            Misfit::NoNumber { reason, .. } => Sight::NoNumber { reason },
            _ => Sight::NoScript { misfit },
        }
    }
}

pub fn code(kind: RecordKind) -> char {
    char::from(kind.code())
}

pub fn wrong_kind(
    direction: Direction,
    batch: BatchKind,
    position: usize,
    kind: RecordKind,
) -> Sight {
    Sight::WrongKind {
        direction: char::from(direction.code()),
        first: code(batch.first_kind()),
        position,
        kind: code(kind),
    }
}
