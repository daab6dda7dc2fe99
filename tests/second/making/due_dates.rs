//! Due dates of boletos: those around the turns of the factor, and any other.

use crate::making::random::Random;
use crate::paper::calendar::{Calendar, FIRST_YEAR, LAST_YEAR, MONTHS};
use crate::paper::Paper;

/// DDMMAAAA.
pub type DueDate = [u8; 8];

/// The day of a turn, the one before and the one behind, each with its factor:
/// the first factor there is, the first of four digits, every day on which the
/// count goes back to 1000; and the first and the last date of all.
pub const AROUND_TURNS: [(DueDate, Option<u32>); 33] = [
    (*b"01011997", None),
    (*b"06101997", None),
    (*b"07101997", None),
    (*b"08101997", Some(1)),
    (*b"09101997", Some(2)),
    (*b"02072000", Some(999)),
    (*b"03072000", Some(1_000)),
    (*b"04072000", Some(1_001)),
    (*b"21022025", Some(9_999)),
    (*b"22022025", Some(1_000)),
    (*b"23022025", Some(1_001)),
    (*b"13102049", Some(9_999)),
    (*b"14102049", Some(1_000)),
    (*b"15102049", Some(1_001)),
    (*b"04062074", Some(9_999)),
    (*b"05062074", Some(1_000)),
    (*b"06062074", Some(1_001)),
    (*b"24012099", Some(9_999)),
    (*b"25012099", Some(1_000)),
    (*b"26012099", Some(1_001)),
    (*b"16092123", Some(9_999)),
    (*b"17092123", Some(1_000)),
    (*b"18092123", Some(1_001)),
    (*b"07052148", Some(9_999)),
    (*b"08052148", Some(1_000)),
    (*b"09052148", Some(1_001)),
    (*b"27122172", Some(9_999)),
    (*b"28122172", Some(1_000)),
    (*b"29122172", Some(1_001)),
    (*b"18082197", Some(9_999)),
    (*b"19082197", Some(1_000)),
    (*b"20082197", Some(1_001)),
    (*b"31122199", Some(1_864)),
];

/// Around a turn as often as not.
pub fn any_due_date(random: &mut Random) -> DueDate {
    if random.coin() {
        let (due, _) = random.pick(&AROUND_TURNS);
        return due;
    }
    let year = random.between(FIRST_YEAR as usize, LAST_YEAR as usize) as u32;
    let month = random.between(1, MONTHS as usize) as u32;
    let last_day = Paper.days_in(month, year);
    let any_day = random.between(1, last_day as usize) as u32;
    let day = random.pick(&[1, last_day, any_day]);
    due_date(day, month, year)
}

/// A year has four digits here.
pub fn due_date(day: u32, month: u32, year: u32) -> DueDate {
    let mut due = DueDate::default();
    due.copy_from_slice(format!("{day:02}{month:02}{year:04}").as_bytes());
    due
}
