//! Counts what was seen in the files in parts of a run, and holds every one of
//! them against the second program's own whole-file check.

use std::collections::BTreeSet;

use crate::asking::part_calls::PartMisfit;
use crate::checking::part_claims::answer_by_the_whole_file;
use crate::checking::part_demands::demanded;
use crate::checking::part_sights::{sights_of, Sight};
use crate::paper::answers::Answer;
use crate::paper::parts::PartCall;

/// A run with fewer files in parts says too little.
const LEAST_FILES: usize = 20_000;

pub struct PartTally {
    files: usize,
    /// What is demanded and no file has shown so far.
    unseen: BTreeSet<Sight>,
    /// Files whose answers are those of the whole file, and others.
    as_whole: usize,
    otherwise: usize,
}

impl Default for PartTally {
    fn default() -> PartTally {
        PartTally {
            files: 0,
            unseen: demanded().into_iter().collect(),
            as_whole: 0,
            otherwise: 0,
        }
    }
}

impl PartTally {
    pub fn count(&mut self, calls: &Result<Vec<PartCall>, PartMisfit>, answer: &Answer) {
        self.files += 1;
        match calls {
            Ok(calls) => self.count_calls(calls, answer),
            Err(misfit) => self.see([Sight::NoCalls { misfit: *misfit }]),
        }
    }

    fn count_calls(&mut self, calls: &[PartCall], answer: &Answer) {
        let by_the_whole_file = answer_by_the_whole_file(calls).as_reply();
        if answer.as_reply() == by_the_whole_file {
            self.as_whole += 1;
        } else {
            self.otherwise += 1;
        }
        // Looking costs time.
        if !self.unseen.is_empty() {
            self.see(sights_of(calls, &answer.lines));
        }
    }

    fn see(&mut self, sights: impl IntoIterator<Item = Sight>) {
        for sight in sights {
            self.unseen.remove(&sight);
        }
    }

    /// What no file in parts showed, and what makes them worthless.
    pub fn gaps(&self) -> Vec<String> {
        let unseen = self.unseen.iter();
        let mut gaps: Vec<String> = unseen
            .map(|sight| format!("no file in parts showed {sight:?}"))
            .collect();
        if self.otherwise > 0 {
            let otherwise = self.otherwise;
            gaps.push(format!(
                "{otherwise} files in parts are answered otherwise than whole"
            ));
        }
        if self.files < LEAST_FILES {
            gaps.push(format!("there were only {} files in parts", self.files));
        }
        gaps
    }

    pub fn summary(&self) -> String {
        format!(
            "files in parts: {} with {} sorts of contents, answered as the whole file: {}",
            self.files,
            demanded().len(),
            self.as_whole
        )
    }
}
