//! Mistakes about the dates and times that exist.

use super::faults::Fault;
use super::Sown;
use crate::paper::calendar::{Calendar, LAST_HOUR, LAST_YEAR};
use crate::paper::Paper;

impl Calendar for Sown {
    fn last_year(&self) -> u32 {
        LAST_YEAR + u32::from(self.has(Fault::Year2200Allowed))
    }

    fn last_hour(&self) -> u32 {
        LAST_HOUR + u32::from(self.has(Fault::Hour24Allowed))
    }

    fn is_leap(&self, year: u32) -> bool {
        match self.fault {
            Fault::LeapEveryFourthYear => year % 4 == 0,
            _ => Paper.is_leap(year),
        }
    }
}
