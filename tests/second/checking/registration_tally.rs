//! Looks for CPF and CNPJ of every sort in the records of a run.

use std::collections::BTreeSet;

use crate::asking::probe::Request;
use crate::checking::judged_records::judged_records;
use crate::checking::registration_demands::demanded;
use crate::checking::registration_sights::{sights_of, Sight};
use crate::paper::answers::Answer;

pub struct RegistrationTally {
    /// What is demanded and no request has shown so far.
    unseen: BTreeSet<Sight>,
    all: usize,
}

impl Default for RegistrationTally {
    fn default() -> RegistrationTally {
        let unseen: BTreeSet<Sight> = demanded().into_iter().collect();
        let all = unseen.len();
        RegistrationTally { unseen, all }
    }
}

impl RegistrationTally {
    pub fn count(&mut self, request: &Request, answer: &Answer) {
        // Looking costs time.
        if self.unseen.is_empty() {
            return;
        }
        for judged in judged_records(request, answer) {
            for sight in sights_of(&judged) {
                self.unseen.remove(&sight);
            }
        }
    }

    pub fn gaps(&self) -> Vec<String> {
        let unseen = self.unseen.iter();
        let gaps = unseen.map(|sight| format!("no request showed {sight:?}"));
        gaps.collect()
    }

    pub fn summary(&self) -> String {
        let seen = self.all - self.unseen.len();
        format!("CPF and CNPJ in records: {seen} of {} sorts", self.all)
    }
}
