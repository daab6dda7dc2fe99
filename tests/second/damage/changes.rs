//! One byte of an accepted request changed, again and again, and what is demanded
//! of each change.

use crate::asking::probe::Request;

#[derive(Clone, Copy, PartialEq, Eq)]
pub enum Demand {
    Refusal,
    /// With the totals of the unchanged file.
    Acceptance,
    /// With a payment that was live counted as withdrawn or the other way round, or
    /// with one payment less.
    OtherTotals,
}

impl Demand {
    /// A demand that is wrong where this one is right.
    pub fn wrong(self) -> Demand {
        match self {
            Demand::Refusal | Demand::OtherTotals => Demand::Acceptance,
            Demand::Acceptance => Demand::Refusal,
        }
    }
}

/// One byte, changed.
#[derive(Clone, Copy)]
pub struct Change {
    /// Counted from 1; 0 in a digit string.
    pub line: usize,
    pub place: usize,
    pub byte: u8,
    pub demand: Demand,
}

/// An accepted request, and the changes that are tried on it.
#[derive(Clone)]
pub struct Trials {
    pub name: String,
    pub accepted: Request,
    pub changes: Vec<Change>,
}

impl Trials {
    pub fn changes_with(&self, demand: Demand) -> impl Iterator<Item = &Change> {
        let changes = self.changes.iter();
        changes.filter(move |change| change.demand == demand)
    }

    /// Counts each place once, however many bytes are tried there.
    pub fn places_with(&self, demand: Demand) -> usize {
        let changes = self.changes_with(demand);
        let mut places: Vec<_> = changes.map(|change| (change.line, change.place)).collect();
        places.dedup();
        places.len()
    }
}
