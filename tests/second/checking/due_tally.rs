//! Looks for the due dates around turns in the files of a run: each with its
//! own factor in an accepted file, and with another that was refused.

use std::collections::BTreeSet;

use crate::making::due_dates::AROUND_TURNS;
use crate::paper::answers::{Answer, Verdict};
use crate::paper::lines::LINE_BYTES;
use crate::paper::numbers::WRONG_DUE_DATE;
use crate::paper::places::{DUE, FACTOR, MOVEMENT, SEGMENT};

pub struct DueTally {
    /// Dates, with their factors, that no accepted file has had so far. Where a
    /// date has no factor, 0 is wanted.
    not_accepted: BTreeSet<(Vec<u8>, u64)>,
    /// Dates with a wrong factor for which no file has been refused so far.
    not_refused: BTreeSet<Vec<u8>>,
}

impl Default for DueTally {
    fn default() -> DueTally {
        let pairs = AROUND_TURNS.map(|(due, factor)| (due.to_vec(), factor.unwrap_or(0).into()));
        DueTally {
            not_accepted: pairs.into(),
            not_refused: AROUND_TURNS.map(|(due, _)| due.to_vec()).into(),
        }
    }
}

impl DueTally {
    pub fn count(&mut self, file: &[u8], answer: &Answer) {
        let mut lines = file.chunks(LINE_BYTES);
        match answer.lines.first().map(|line| line.verdict) {
            Some(Verdict::Accepted) => {
                for boleto in lines.filter(|line| is_j(line)) {
                    let pair = (DUE.of(boleto).to_vec(), FACTOR.number(boleto));
                    self.not_accepted.remove(&pair);
                }
            }
            Some(Verdict::Refused {
                number: WRONG_DUE_DATE,
                line,
                ..
            }) => {
                if let Some(boleto) = lines.nth(line as usize - 1) {
                    self.not_refused.remove(DUE.of(boleto));
                }
            }
            _ => {}
        }
    }

    pub fn gaps(&self) -> Vec<String> {
        let mut gaps = Vec::new();
        for (due, factor) in &self.not_accepted {
            let due = due.escape_ascii();
            gaps.push(format!("no accepted file had {due} with factor {factor}"));
        }
        for due in &self.not_refused {
            let due = due.escape_ascii();
            gaps.push(format!("no file was refused for a wrong factor of {due}"));
        }
        gaps
    }

    pub fn summary(&self) -> String {
        let all = AROUND_TURNS.len();
        format!(
            "due dates around turns in accepted files: {} of {all}, refused with 17: {} of {all}",
            all - self.not_accepted.len(),
            all - self.not_refused.len()
        )
    }
}

/// In an accepted file, where J52 has a blank at the place of J's movement.
fn is_j(line: &[u8]) -> bool {
    SEGMENT.of(line) == b"J" && MOVEMENT.of(line) != b" "
}
