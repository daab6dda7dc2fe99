//! Claims of document 01 about files, checked over the second program's own
//! machine: where one fails, the second program is wrong.

use crate::checking::due_claims;
use crate::making::good_files::{any_file, MadeFile};
use crate::making::plain_files;
use crate::making::random::Random;
use crate::paper::answers::Verdict;
use crate::paper::file_reader::check_file;
use crate::paper::guarded_places::guarded_places;
use crate::paper::lines::LINE_BYTES;
use crate::paper::payments::{payments_of, totals_of};
use crate::paper::totals::Totals;

const SEED: u64 = 9;
const FILES: usize = 60;

/// Files and what document 01 says of them.
const EXAMPLE: &str = "OK 1 6 1 10000 0 0";
const EMPTY: &str = "NO 2 1 0";
const SHORT: &str = "NO 1 1 0";

/// How many changed bytes at guarded places of files were refused.
pub fn check() -> Result<usize, String> {
    examples()?;
    due_claims::check()?;
    let mut random = Random::with_seed(SEED);
    let mut refused = 0;
    for _ in 0..FILES {
        let file = any_file(&mut random);
        demand(accepts(&file), "acceptance of a good file")?;
        totals_are_sums(&file)?;
        refused += changes_at_guarded_places(&mut random, &file)?;
    }
    Ok(refused)
}

fn examples() -> Result<(), String> {
    let example = plain_files::one_payment();
    for (bytes, said) in [
        (example.as_slice(), EXAMPLE),
        (&example[..0], EMPTY),
        (&example[..LINE_BYTES - 1], SHORT),
    ] {
        demand(check_file(bytes).to_string() == said, said)?;
    }
    Ok(())
}

/// Each of the last four numbers is a sum over the file's own payments.
fn totals_are_sums(file: &MadeFile) -> Result<(), String> {
    let lines = file.lines.iter().map(|line| line.bytes.as_slice());
    let Totals { live, withdrawn } = totals_of(&payments_of(lines));
    let sums = [live, withdrawn].map(|share| format!(" {} {}", share.payments, share.cents));
    let said = check_file(&file.bytes()).to_string();
    demand(said.ends_with(&sums.concat()), "the totals of a good file")
}

fn accepts(file: &MadeFile) -> bool {
    check_file(&file.bytes()).verdict == Verdict::Accepted
}

fn changes_at_guarded_places(random: &mut Random, file: &MadeFile) -> Result<usize, String> {
    let mut refused = 0;
    for at in 0..file.lines.len() {
        for place in guarded_places(file.line_at(at)) {
            let mut changed = file.clone();
            let byte = &mut changed.lines[at].bytes[place - 1];
            *byte = changed_byte(random, *byte);
            demand(!accepts(&changed), "refusal of a change at a guarded place")?;
            refused += 1;
        }
    }
    Ok(refused)
}

/// A digit becomes another digit more often than anything else, since that is
/// the change that is hardest to notice.
fn changed_byte(random: &mut Random, byte: u8) -> u8 {
    if byte.is_ascii_digit() && random.below(4) > 0 {
        return random.other_digit(byte);
    }
    byte.wrapping_add(random.between(1, 255) as u8)
}

fn demand(holds: bool, claim: &str) -> Result<(), String> {
    if holds {
        return Ok(());
    }
    Err(format!("{claim}: not as document 01 says"))
}
