//! The dates and times that exist by document 01, as records hold them: kind D
//! of the layout table, and the file header's time.

use super::Paper;

pub const FIRST_YEAR: u32 = 1997;
pub const LAST_YEAR: u32 = 2199;
pub const MONTHS: u32 = 12;
pub const LAST_HOUR: u32 = 23;
const LAST_MINUTE: u32 = 59;
const LAST_SECOND: u32 = 59;
const LONG_FEBRUARY: u32 = 29;
const DAYS_OF_A_SHORT_YEAR: u32 = 365;

pub trait Calendar {
    fn last_year(&self) -> u32 {
        LAST_YEAR
    }

    fn last_hour(&self) -> u32 {
        LAST_HOUR
    }

    /// DDMMAAAA.
    fn has_date(&self, content: &[u8]) -> bool {
        self.date(content).is_some()
    }

    /// Day, month and year of a date that exists.
    fn date(&self, content: &[u8]) -> Option<(u32, u32, u32)> {
        let day = number(&content[..2])?;
        let month = number(&content[2..4])?;
        let year = number(&content[4..])?;
        let exists = (FIRST_YEAR..=self.last_year()).contains(&year)
            && (1..=self.days_in(month, year)).contains(&day);
        exists.then_some((day, month, year))
    }

    /// Which of all dates this one is, the first being 1; nothing for a date
    /// that does not exist.
    fn ordinal(&self, content: &[u8]) -> Option<u32> {
        let (day, month, year) = self.date(content)?;
        let years: u32 = (FIRST_YEAR..year).map(|y| self.days_in_year(y)).sum();
        let months: u32 = (1..month).map(|m| self.days_in(m, year)).sum();
        Some(years + months + day)
    }

    /// HHMMSS.
    fn has_time(&self, content: &[u8]) -> bool {
        let parts = (
            number(&content[..2]),
            number(&content[2..4]),
            number(&content[4..]),
        );
        match parts {
            (Some(hour), Some(minute), Some(second)) => {
                hour <= self.last_hour() && minute <= LAST_MINUTE && second <= LAST_SECOND
            }
            _ => false,
        }
    }

    /// A month that does not exist has no days.
    fn days_in(&self, month: u32, year: u32) -> u32 {
        match month {
            2 if self.is_leap(year) => LONG_FEBRUARY,
            2 => LONG_FEBRUARY - 1,
            4 | 6 | 9 | 11 => 30,
            1..=MONTHS => 31,
            _ => 0,
        }
    }

    fn days_in_year(&self, year: u32) -> u32 {
        DAYS_OF_A_SHORT_YEAR + u32::from(self.is_leap(year))
    }

    fn is_leap(&self, year: u32) -> bool {
        year % 4 == 0 && (year % 100 != 0 || year % 400 == 0)
    }
}

impl Calendar for Paper {}

/// The number a few digits give; nothing where one of them is no digit.
fn number(digits: &[u8]) -> Option<u32> {
    digits.iter().try_fold(0, |number, byte| {
        let digit = char::from(*byte).to_digit(10)?;
        Some(number * 10 + digit)
    })
}
