//! Payments made live or withdrawn, and what might mislead about them.

use crate::making::good_files::MadeFile;
use crate::making::random::Random;
use crate::paper::layout_table as table;
use crate::paper::places::{self, INSTRUCTION, MOVEMENT};
use crate::paper::record_kinds::RecordKind;
use crate::paper::totals::{Movement, MOVEMENTS};
use crate::paper::writer_calls::WriterCall;

/// What might be taken for a word on the movement: 'included', 'included but
/// held', no code at all, and 'excluded'.
pub const INSTRUCTIONS: [&[u8]; 4] = [b"00", b"09", b"90", b"99"];
/// With which a withdrawn payment might be taken for live.
const OF_LIVE_ONES: &[u8] = INSTRUCTIONS[0];
/// And the other way round.
const OF_WITHDRAWN_ONES: [&[u8]; 3] = [INSTRUCTIONS[1], INSTRUCTIONS[2], INSTRUCTIONS[3]];

pub fn put_movement(record: &mut [u8], movement: Movement) {
    MOVEMENT.put(record, &[movement.code()]);
}

impl MadeFile {
    /// Where the first records of payments stand, in order.
    pub fn payments(&self) -> Vec<usize> {
        let lines = self.lines.iter().enumerate();
        let firsts = lines.filter(|(_, line)| places::amount(line.kind).is_some());
        firsts.map(|(at, _)| at).collect()
    }

    /// The payments have these movements in turn, from the first again where
    /// there are more payments.
    pub fn put_movements(&mut self, movements: &[Movement]) {
        for (at, movement) in self.payments().into_iter().zip(movements.iter().cycle()) {
            put_movement(&mut self.lines[at].bytes, *movement);
        }
    }

    /// A reading by the instruction code, or by place 15 of another record, takes
    /// each payment for the other.
    pub fn mislead(&mut self, random: &mut Random) {
        let mut movement = Movement::Live;
        for line in &mut self.lines {
            match line.kind {
                RecordKind::A | RecordKind::J | RecordKind::O => {
                    movement = Movement::of(&line.bytes);
                    let instruction = match movement {
                        Movement::Live => random.pick(&OF_WITHDRAWN_ONES),
                        Movement::Withdrawn => OF_LIVE_ONES,
                    };
                    INSTRUCTION.put(&mut line.bytes, instruction);
                }
                // Anything may stand there; a J52 has a blank.
                RecordKind::B | RecordKind::Z => put_movement(&mut line.bytes, movement.other()),
                _ => {}
            }
        }
    }
}

/// Every way in which so many payments can be live and withdrawn.
pub fn all_mixes(payments: usize) -> Vec<Vec<Movement>> {
    let mut mixes = vec![Vec::new()];
    for _ in 0..payments {
        let longer = mixes.iter().flat_map(|mix| {
            MOVEMENTS.map(|movement| mix.iter().copied().chain([movement]).collect())
        });
        mixes = longer.collect();
    }
    mixes
}

/// The movement that the caller of a payment gives.
pub fn given_movement(call: &WriterCall) -> Movement {
    let first = &call.records[0];
    let given = movement_index(first.kind).and_then(|index| first.values.numbers[index]);
    if given == Some(Movement::Withdrawn.number()) {
        Movement::Withdrawn
    } else {
        Movement::Live
    }
}

pub fn give_movement(call: &mut WriterCall, movement: Movement) {
    let first = &mut call.records[0];
    if let Some(index) = movement_index(first.kind) {
        first.values.numbers[index] = Some(movement.number());
    }
}

fn movement_index(kind: RecordKind) -> Option<usize> {
    let mut fields = table::fields(kind).into_iter();
    places::amount(kind)?;
    fields.position(|field| field.first == MOVEMENT.first)
}
