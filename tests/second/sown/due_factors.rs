//! Mistakes in the count of due factors.

use super::faults::Fault;
use super::Sown;
use crate::paper::due_factors::{DueFactors, DAYS_OF_A_ROUND, LARGEST_FACTOR};
use crate::paper::Paper;

/// A number cut to the four digits of a factor is the rest by this.
const FOUR_DIGITS: u32 = 10_000;

/// The faults that give some dates another factor. Days that are never folded
/// are cut in a barcode, and so modulo 10,000 stands for them too.
const COUNTING_FAULTS: [Fault; 5] = [
    Fault::DaysFoldedModulo10000,
    Fault::DaysFoldedInto0To8999,
    Fault::DaysFoldedOnce,
    Fault::RoundsBeginAtOne,
    Fault::EarlyDaysWrap,
];

/// The factors that mistaken counts give to a date.
pub fn mistaken_factors(due: &[u8]) -> impl Iterator<Item = u32> {
    let factors = COUNTING_FAULTS.map(|fault| Sown::with(fault).factor_of(due));
    factors.into_iter().flatten()
}

impl DueFactors for Sown {
    fn factor_of_days(&self, days: i64) -> Option<u32> {
        let right = Paper.factor_of_days(days);
        let largest = i64::from(LARGEST_FACTOR);
        if days > largest {
            return right.map(|right| folded(self.fault, days as u32, right));
        }
        match self.fault {
            Fault::EarlyDaysWrap if days <= 0 => {
                u32::try_from(days + i64::from(DAYS_OF_A_ROUND)).ok()
            }
            Fault::OldDatesWithoutFactor => None,
            _ => right,
        }
    }
}

/// Of days that are too many for a factor.
fn folded(fault: Fault, days: u32, right: u32) -> u32 {
    match fault {
        Fault::DaysNeverFolded => days,
        Fault::DaysFoldedModulo10000 => days % FOUR_DIGITS,
        Fault::DaysFoldedInto0To8999 => days % DAYS_OF_A_ROUND,
        Fault::DaysFoldedOnce => days - DAYS_OF_A_ROUND,
        Fault::RoundsBeginAtOne => (days - 1) % LARGEST_FACTOR + 1,
        _ => right,
    }
}
