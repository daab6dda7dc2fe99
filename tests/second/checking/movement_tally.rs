//! Looks for live and withdrawn payments in the files of a run: in every shape
//! of accepted file, and where trailers and limits go by both.

use std::collections::BTreeSet;

use crate::cases::withdrawn_cases::records_of;
use crate::making::movements::INSTRUCTIONS;
use crate::paper::answers::{Answer, Verdict};
use crate::paper::lines::{CENTS_LIMIT, LINE_BYTES};
use crate::paper::numbers::{TOTAL_TOO_LARGE, WRONG_COUNT, WRONG_SUM};
use crate::paper::payments::{payments_of, totals_of, Payment};
use crate::paper::places::{BATCH_RECORDS, BATCH_SUM, DIRECTION, TYPE};
use crate::paper::record_kinds::{Direction, RecordKind, DIRECTIONS};
use crate::paper::totals::{Movement, Totals, MOVEMENTS};

/// The codes of records that begin payments.
const FIRSTS: [char; 3] = ['A', 'J', 'O'];

/// Where a payment stands in its batch.
#[derive(Clone, Copy, PartialEq, Eq, PartialOrd, Ord, Debug)]
enum Position {
    Only,
    First,
    Inside,
    Last,
}

const POSITIONS: [Position; 4] = [
    Position::Only,
    Position::First,
    Position::Inside,
    Position::Last,
];

/// Which movements some payments have.
#[derive(Clone, Copy, PartialEq, Eq, PartialOrd, Ord, Debug)]
pub enum Mix {
    AllLive,
    AllWithdrawn,
    Both,
}

pub const MIXES: [Mix; 3] = [Mix::AllLive, Mix::AllWithdrawn, Mix::Both];

impl Mix {
    /// Nothing if there are no payments.
    pub fn of(totals: Totals) -> Option<Mix> {
        match (totals.live.payments, totals.withdrawn.payments) {
            (0, 0) => None,
            (_, 0) => Some(Mix::AllLive),
            (0, _) => Some(Mix::AllWithdrawn),
            _ => Some(Mix::Both),
        }
    }
}

/// How a file is given: as a whole, or line by line.
#[derive(Clone, Copy, PartialEq, Eq, PartialOrd, Ord, Debug)]
pub enum Way {
    Whole,
    Lines,
}

const WAYS: [Way; 2] = [Way::Whole, Way::Lines];

/// Which of the four numbers behind batches and records are not 0.
pub type Counted = [bool; 4];

/// Payments without cents are payments still.
pub const COUNTED: [Counted; 8] = [
    [true, true, true, true],
    [true, true, true, false],
    [true, true, false, false],
    [true, false, true, true],
    [true, false, true, false],
    [true, false, false, false],
    [false, false, true, true],
    [false, false, true, false],
];

/// Directions and kinds of records are named by their codes.
#[derive(Clone, Copy, PartialEq, Eq, PartialOrd, Ord, Debug)]
enum Sight {
    Payment {
        way: Way,
        direction: char,
        first: char,
        position: Position,
        movement: Movement,
        has_z: bool,
    },
    Batch {
        way: Way,
        direction: char,
        first: char,
        mix: Mix,
    },
    File {
        way: Way,
        direction: char,
        several_batches: bool,
        mix: Mix,
    },
    Instruction {
        first: char,
        movement: Movement,
        instruction: &'static [u8],
    },
    Numbers {
        way: Way,
        counted: Counted,
    },
    /// 22 or 21 at a trailer that goes by one of the two alone.
    TrailerOf {
        number: u32,
        movement: Movement,
        direction: char,
        first: char,
    },
    /// 23, which neither of the two reaches alone in a mix.
    TooLarge {
        mix: Mix,
    },
}

pub struct MovementTally {
    /// What is demanded and no file has shown so far.
    unseen: BTreeSet<Sight>,
}

impl Default for MovementTally {
    fn default() -> MovementTally {
        MovementTally {
            unseen: demanded().into_iter().collect(),
        }
    }
}

impl MovementTally {
    pub fn count_file(&mut self, file: &[u8], answer: &Answer) {
        // Looking costs time.
        if self.unseen.is_empty() {
            return;
        }
        let lines: Vec<&[u8]> = file.chunks(LINE_BYTES).collect();
        match answer.lines.first().map(|line| line.verdict) {
            Some(Verdict::Accepted) => self.count_accepted(Way::Whole, &lines, answer),
            Some(Verdict::Refused { number, line, .. }) => {
                let before = line as usize - 1;
                if let Some(refused) = lines.get(before) {
                    self.see(sights_of_refusal(number, &lines[..before], refused));
                }
            }
            None => {}
        }
    }

    /// The last answer is that of the end.
    pub fn count_lines(&mut self, calls: &[&[u8]], answer: &Answer) {
        if answer.accepts() && !self.unseen.is_empty() {
            let calls = calls.iter().zip(&answer.lines);
            let accepted = calls.filter(|(_, line)| line.verdict == Verdict::Accepted);
            let lines: Vec<&[u8]> = accepted.map(|(call, _)| *call).collect();
            self.count_accepted(Way::Lines, &lines, answer);
        }
    }

    fn count_accepted(&mut self, way: Way, lines: &[&[u8]], answer: &Answer) {
        let direction = direction_of(lines);
        let payments = payments_of(lines.iter().copied());
        let batches = payments.chunk_by(|one, next| one.batch == next.batch);
        for batch in batches.clone() {
            self.see(sights_of_batch(way, direction, batch));
        }
        let mix = Mix::of(totals_of(&payments));
        self.see(mix.map(|mix| Sight::File {
            way,
            direction,
            several_batches: batches.count() > 1,
            mix,
        }));
        let numbers = answer.lines.last().map(|line| counted(&line.numbers));
        self.see(
            numbers
                .flatten()
                .map(|counted| Sight::Numbers { way, counted }),
        );
    }

    fn see(&mut self, sights: impl IntoIterator<Item = Sight>) {
        for sight in sights {
            self.unseen.remove(&sight);
        }
    }

    pub fn gaps(&self) -> Vec<String> {
        let unseen = self.unseen.iter();
        unseen
            .map(|sight| format!("no file showed {sight:?}"))
            .collect()
    }

    pub fn summary(&self) -> String {
        let all = demanded().len();
        let seen = all - self.unseen.len();
        format!("live and withdrawn payments in files: {seen} of {all} sorts")
    }
}

/// Of an acceptance's six numbers the last four.
pub fn counted(numbers: &[u64]) -> Option<Counted> {
    let numbers: [u64; 6] = numbers.try_into().ok()?;
    let [_, _, four @ ..] = numbers;
    Some(four.map(|number| number != 0))
}

fn direction_of(lines: &[&[u8]]) -> char {
    let header = lines.first().map(|header| DIRECTION.of(header));
    header.map_or(' ', |code| char::from(code[0]))
}

fn code(kind: RecordKind) -> char {
    char::from(kind.code())
}

fn sights_of_batch(way: Way, direction: char, batch: &[Payment]) -> Vec<Sight> {
    let mut sights = Vec::new();
    for (at, payment) in batch.iter().enumerate() {
        let (first, movement) = (code(payment.kind), payment.movement());
        sights.push(Sight::Payment {
            way,
            direction,
            first,
            position: position(at, batch.len()),
            movement,
            has_z: payment.has_z(),
        });
        let mut known = INSTRUCTIONS.into_iter();
        let instruction = known.find(|known| *known == payment.instruction());
        sights.extend(instruction.map(|instruction| Sight::Instruction {
            first,
            movement,
            instruction,
        }));
    }
    let mix = Mix::of(totals_of(batch));
    sights.extend(mix.map(|mix| Sight::Batch {
        way,
        direction,
        first: code(batch[0].kind),
        mix,
    }));
    sights
}

fn position(at: usize, payments: usize) -> Position {
    match (at == 0, at + 1 == payments) {
        (true, true) => Position::Only,
        (true, false) => Position::First,
        (false, true) => Position::Last,
        (false, false) => Position::Inside,
    }
}

/// Of a whole file that is refused at this line.
fn sights_of_refusal(number: u32, before: &[&[u8]], refused: &[u8]) -> Vec<Sight> {
    let of_interest = [WRONG_COUNT, WRONG_SUM, TOTAL_TOO_LARGE].contains(&number);
    if !of_interest || TYPE.of(refused) != b"5" {
        return Vec::new();
    }
    let payments = payments_of(before.iter().copied());
    if number == TOTAL_TOO_LARGE {
        return too_large(totals_of(&payments));
    }
    let open = payments
        .chunk_by(|one, next| one.batch == next.batch)
        .last();
    let open = open.unwrap_or_default();
    let mut sights = Vec::new();
    for movement in MOVEMENTS {
        let mut totals = totals_of(open);
        let share = *totals.share_mut(movement);
        let first = open.first().map(|payment| payment.kind);
        let own = first.filter(|first| match number {
            WRONG_SUM => u128::from(BATCH_SUM.number(refused)) == share.cents,
            _ => BATCH_RECORDS.number(refused) == records_of(*first, share),
        });
        sights.extend(own.map(|first| Sight::TrailerOf {
            number,
            movement,
            direction: direction_of(before),
            first: code(first),
        }));
    }
    sights
}

fn too_large(totals: Totals) -> Vec<Sight> {
    let mix = Mix::of(totals);
    let alone = [totals.live, totals.withdrawn].map(|share| share.cents >= CENTS_LIMIT);
    let shown = mix.filter(|mix| *mix != Mix::Both || alone == [false, false]);
    shown
        .map(|mix| Sight::TooLarge { mix })
        .into_iter()
        .collect()
}

/// All that has to be seen in a run.
fn demanded() -> Vec<Sight> {
    let mut sights = Vec::new();
    for way in WAYS {
        for direction in DIRECTIONS {
            for first in FIRSTS {
                sights.extend(demanded_in_batches(way, direction, first));
            }
            let direction = char::from(direction.code());
            for mix in MIXES {
                sights.extend([false, true].map(|several_batches| Sight::File {
                    way,
                    direction,
                    several_batches,
                    mix,
                }));
            }
        }
        sights.extend(COUNTED.map(|counted| Sight::Numbers { way, counted }));
    }
    for first in FIRSTS {
        for movement in MOVEMENTS {
            sights.extend(INSTRUCTIONS.map(|instruction| Sight::Instruction {
                first,
                movement,
                instruction,
            }));
            for number in [WRONG_COUNT, WRONG_SUM] {
                sights.extend(DIRECTIONS.map(|direction| Sight::TrailerOf {
                    number,
                    movement,
                    direction: char::from(direction.code()),
                    first,
                }));
            }
        }
    }
    sights.extend(MIXES.map(|mix| Sight::TooLarge { mix }));
    sights
}

fn demanded_in_batches(way: Way, direction: Direction, first: char) -> Vec<Sight> {
    let mut sights = Vec::new();
    let zs: &[bool] = match direction {
        Direction::Remittance => &[false],
        Direction::Return => &[false, true],
    };
    let direction = char::from(direction.code());
    for position in POSITIONS {
        for movement in MOVEMENTS {
            sights.extend(zs.iter().map(|has_z| Sight::Payment {
                way,
                direction,
                first,
                position,
                movement,
                has_z: *has_z,
            }));
        }
    }
    sights.extend(MIXES.map(|mix| Sight::Batch {
        way,
        direction,
        first,
        mix,
    }));
    sights
}
