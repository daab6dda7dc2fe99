//! Due dates and factors that do not belong together.

use crate::making::due_dates::{any_due_date, DueDate};
use crate::making::good_files::put_factor;
use crate::making::random::Random;
use crate::paper::due_factors::{DueFactors, DAYS_OF_A_ROUND, LARGEST_FACTOR};
use crate::paper::places::{DUE, FACTOR};
use crate::paper::Paper;
use crate::sown::mistaken_factors;

/// A number cut to the four digits of a factor is the rest by this.
const FOUR_DIGITS: u32 = 10_000;

/// Due date or factor, the barcode's check being made right again.
pub fn spoil_due_date(random: &mut Random, line: &mut [u8]) {
    let factor = FACTOR.number(line) as u32;
    if factor != 0 && random.coin() {
        DUE.put(line, &any_date_without(random, factor));
        return;
    }
    let mut factors = likely_wrong_factors(DUE.of(line));
    factors.push(random.between(1, LARGEST_FACTOR as usize) as u32);
    put_factor(line, random.pick(&factors));
}

/// A date some rounds off would have the same factor.
fn any_date_without(random: &mut Random, factor: u32) -> DueDate {
    loop {
        let due = any_due_date(random);
        if Paper.factor_of(&due) != Some(factor) {
            return due;
        }
    }
}

/// One more, one that is a round off, the largest, and those that mistaken
/// counts give: the same ones whatever fault the run itself is sown with.
pub fn likely_wrong_factors(due: &[u8]) -> Vec<u32> {
    let own = Paper.factor_of(due);
    let near = own.unwrap_or(0);
    let round_less = near.checked_sub(DAYS_OF_A_ROUND);
    let round_off = round_less.unwrap_or(near + DAYS_OF_A_ROUND);
    let mut factors = vec![near + 1, round_off, LARGEST_FACTOR];
    factors.extend(mistaken_factors(due));
    let cut = factors.into_iter().map(|factor| factor % FOUR_DIGITS);
    cut.filter(|factor| *factor != 0 && Some(*factor) != own)
        .collect()
}
