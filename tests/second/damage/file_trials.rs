//! Changes of one byte of a sample file, at guarded places and at others.

use crate::asking::probe::{Op, Request, UNUSED};
use crate::damage::changes::{Change, Demand, Trials};
use crate::damage::free_letters::free_letters;
use crate::damage::harmless_changes::harmless_changes;
use crate::damage::other_bytes::other_bytes;
use crate::making::good_files::MadeFile;
use crate::making::guarded_samples::Sample;
use crate::making::random::Random;
use crate::paper::guarded_places::{guarded_places, LineOfFile};

/// The request of a file has this room, which is not used.
const NO_ROOM: usize = 0;

/// Which places of a line are taken for guarded.
pub type Guard = fn(LineOfFile) -> Vec<usize>;

pub fn trials_of(random: &mut Random, sample: &Sample) -> Trials {
    let mut trials = trials_with(random, sample, guarded_places);
    let harmless = harmless_changes(random, &sample.file);
    trials.changes.extend(harmless);
    trials.changes.extend(free_letters(&sample.file));
    trials
}

/// The refusals that follow where these places are guarded.
pub fn trials_with(random: &mut Random, sample: &Sample, guard: Guard) -> Trials {
    let file = sample.file.bytes();
    Trials {
        name: sample.name.to_string(),
        accepted: Request::new(Op::CheckFile, UNUSED, NO_ROOM, file),
        changes: refused_changes(random, &sample.file, guard),
    }
}

fn refused_changes(random: &mut Random, file: &MadeFile, guard: Guard) -> Vec<Change> {
    let mut changes = Vec::new();
    for (before, line) in file.lines.iter().enumerate() {
        for place in guard(file.line_at(before)) {
            let others = other_bytes(random, place, line.bytes[place - 1]);
            changes.extend(others.into_iter().map(|byte| Change {
                line: before + 1,
                place,
                byte,
                demand: Demand::Refusal,
            }));
        }
    }
    changes
}
