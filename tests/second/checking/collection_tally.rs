//! Looks for O records and collection codes of every sort in the requests of a run.

use std::collections::BTreeSet;

use crate::asking::probe::Request;
use crate::checking::collection_demands::demanded;
use crate::checking::collection_sights::{sight_of_string, sights_of_record, Sight};
use crate::checking::judged_records::judged_records;
use crate::paper::answers::Answer;

pub struct CollectionTally {
    /// What is demanded and no request has shown so far.
    unseen: BTreeSet<Sight>,
}

impl Default for CollectionTally {
    fn default() -> CollectionTally {
        CollectionTally {
            unseen: demanded().into_iter().collect(),
        }
    }
}

impl CollectionTally {
    pub fn count(&mut self, request: &Request, answer: &Answer) {
        // Looking costs time.
        if self.unseen.is_empty() {
            return;
        }
        let records = judged_records(request, answer);
        let of_records = records.iter().flat_map(sights_of_record);
        for sight in of_records.chain(sight_of_string(request, answer)) {
            self.unseen.remove(&sight);
        }
    }

    pub fn gaps(&self) -> Vec<String> {
        let unseen = self.unseen.iter();
        unseen
            .map(|sight| format!("no request showed {sight:?}"))
            .collect()
    }

    pub fn summary(&self) -> String {
        let all = demanded().len();
        let seen = all - self.unseen.len();
        format!("O records and collection codes: {seen} of {all} sorts")
    }
}
