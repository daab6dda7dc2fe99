//! Trials that demand something wrong, so that a run which cannot fail is
//! noticed: the program must be seen to break each of these demands.

use std::slice;

use crate::comparing::trials::first_failure;
use crate::damage::changes::{Demand, Trials};
use crate::damage::file_trials::trials_with;
use crate::making::guarded_samples::Sample;
use crate::making::random::Random;
use crate::paper::guarded_places::{guarded_places, LineOfFile};
use crate::paper::record_kinds::RecordKind;

/// A place of the file header that any printable byte may take.
const FREE_PLACE: usize = 58;
const FILE_HEADER_LINE: usize = 1;

/// Trials, and the line and the place at which they demand something wrong.
pub struct SownMistake {
    trials: Trials,
    line: usize,
    place: usize,
}

impl SownMistake {
    /// A list of guarded places with one too many.
    pub fn in_the_list(random: &mut Random, sample: &Sample) -> SownMistake {
        SownMistake {
            trials: trials_with(random, sample, one_place_too_many),
            line: FILE_HEADER_LINE,
            place: FREE_PLACE,
        }
    }

    /// Something wrong demanded of the first change of which this is demanded;
    /// nothing if there is no such change.
    pub fn in_a_demand(trials: &Trials, demand: Demand) -> Option<SownMistake> {
        let mut trials = trials.clone();
        let mut changes = trials.changes.iter_mut();
        let change = changes.find(|change| change.demand == demand)?;
        change.demand = demand.wrong();
        let (line, place) = (change.line, change.place);
        Some(SownMistake {
            trials,
            line,
            place,
        })
    }

    /// The failure has to be just the one that was sown.
    pub fn must_be_found(&self, command: &[String]) -> Result<(), String> {
        match first_failure(command, slice::from_ref(&self.trials))? {
            None => Err(format!(
                "a mistake sown at line {}, place {} was not found",
                self.line, self.place
            )),
            Some(failure) if failure.is_at(self.line, self.place) => Ok(()),
            Some(failure) => Err(format!("beside a sown mistake: {failure}")),
        }
    }
}

fn one_place_too_many(line: LineOfFile) -> Vec<usize> {
    let mut places = guarded_places(line);
    if line.kind == RecordKind::FileHeader {
        places.push(FREE_PLACE);
    }
    places
}
