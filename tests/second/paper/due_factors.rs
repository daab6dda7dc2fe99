//! The one due factor of a date, by request 3 of document 02. A factor goes
//! round and names no date by itself, so nothing here leads back to one.

use super::calendar::Calendar;
use super::Paper;

/// Factors count the days after this one.
const DAY_BEFORE_ALL_FACTORS: &[u8] = b"07101997";
pub const LARGEST_FACTOR: u32 = 9_999;
/// Behind the largest factor the count goes back by so many days.
pub const DAYS_OF_A_ROUND: u32 = 9_000;

pub trait DueFactors: Calendar {
    /// The factor of a date DDMMAAAA; none for a date that does not exist,
    /// whose field is refused anyway.
    fn factor_of(&self, due: &[u8]) -> Option<u32> {
        let day = i64::from(self.ordinal(due)?);
        let before_all = i64::from(self.ordinal(DAY_BEFORE_ALL_FACTORS)?);
        self.factor_of_days(day - before_all)
    }

    /// There is none up to 7 October 1997.
    fn factor_of_days(&self, days: i64) -> Option<u32> {
        let days = u32::try_from(days).ok()?;
        (days > 0).then(|| without_whole_rounds(days))
    }
}

impl DueFactors for Paper {}

/// Rounds are taken off until four digits are enough.
fn without_whole_rounds(mut days: u32) -> u32 {
    while days > LARGEST_FACTOR {
        days -= DAYS_OF_A_ROUND;
    }
    days
}
