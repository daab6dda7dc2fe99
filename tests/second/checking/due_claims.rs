//! Claims of the papers about due factors, checked over the second program's
//! own: where one fails, the second program is wrong.

use crate::making::due_dates::{due_date, DueDate, AROUND_TURNS};
use crate::paper::calendar::{Calendar, FIRST_YEAR, LAST_YEAR, MONTHS};
use crate::paper::due_factors::{DueFactors, LARGEST_FACTOR};
use crate::paper::examples::FACTORS;
use crate::paper::Paper;

const FIRST_DAY_WITH_FACTOR: DueDate = *b"08101997";
/// What comes behind the largest factor.
const FIRST_OF_A_ROUND: u32 = 1_000;

pub fn check() -> Result<(), String> {
    for (due, factor) in FACTORS.into_iter().chain(AROUND_TURNS) {
        demand(due, factor)?;
    }
    day_by_day()
}

/// All dates one after the other, the factor being counted along.
fn day_by_day() -> Result<(), String> {
    let years = FIRST_YEAR..=LAST_YEAR;
    let months = years.flat_map(|year| (1..=MONTHS).map(move |month| (month, year)));
    let mut factor = None;
    for (month, year) in months {
        for day in 1..=Paper.days_in(month, year) {
            let due = due_date(day, month, year);
            factor = match factor {
                None => (due == FIRST_DAY_WITH_FACTOR).then_some(1),
                Some(LARGEST_FACTOR) => Some(FIRST_OF_A_ROUND),
                Some(factor) => Some(factor + 1),
            };
            demand(due, factor)?;
        }
    }
    Ok(())
}

fn demand(due: DueDate, factor: Option<u32>) -> Result<(), String> {
    if Paper.factor_of(&due) == factor {
        return Ok(());
    }
    let due = due.escape_ascii();
    Err(format!("factor of {due}: not as the papers say"))
}
