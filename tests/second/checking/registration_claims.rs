//! Claims of request 7 about CPF and CNPJ, checked over the second program's own
//! rules: where one fails, the second program is wrong.

use crate::checking::registration_arithmetic::is_right;
use crate::checking::registration_vectors;
use crate::making::good_files::{any_file, MadeFile};
use crate::making::random::Random;
use crate::making::registrations::{any_base, behind_zeros, REGISTRATIONS};
use crate::paper::guarded_places::guarded_places;
use crate::paper::layout_table::{self as table, Field};
use crate::paper::places::{part, Part};
use crate::paper::record_kinds::RecordKind;
use crate::paper::registration::{Registration, RegistrationRules};
use crate::paper::Paper;

const SEED: u64 = 21;
const BASES: usize = 400;
const FILES: usize = 40;
const PAIRS_OF_CHECKS: u32 = 100;
/// Document 01's places of such numbers.
const PLACES: [(RecordKind, &[Part]); 4] = [
    (RecordKind::FileHeader, &[part(19, 32)]),
    (RecordKind::BatchHeader, &[part(19, 32)]),
    (RecordKind::B, &[part(19, 32)]),
    (
        RecordKind::J52,
        &[part(21, 35), part(77, 91), part(133, 147)],
    ),
];

/// How many numbers worked out apart are as they should be.
pub fn check() -> Result<usize, String> {
    let vectors = registration_vectors::check()?;
    let mut random = Random::with_seed(SEED);
    for (kind, parts) in PLACES {
        let fields = table::registrations(kind).into_iter();
        let found: Vec<Part> = fields.map(|field| part(field.first, field.last)).collect();
        demand(found == parts, "the places of the numbers")?;
    }
    for registration in REGISTRATIONS {
        for _ in 0..BASES {
            let base = any_base(&mut random, registration);
            one_pair_is_right(registration, &base)?;
        }
    }
    for _ in 0..FILES {
        let file = any_file(&mut random);
        no_number_is_guarded(&file)?;
    }
    Ok(vectors)
}

/// Of all pairs of check digits, the one that the rule in other words gives; and
/// in a wider field only behind zeros.
fn one_pair_is_right(registration: Registration, base: &[u8]) -> Result<(), String> {
    let mut right = 0;
    for checks in 0..PAIRS_OF_CHECKS {
        let number = [base, format!("{checks:02}").as_bytes()].concat();
        let content = behind_zeros(&number, registration.characters() + 1);
        let said = Paper.number_is_right(registration, &content);
        demand(said == is_right(registration, &content), "a number")?;
        let mut wider = content;
        wider[0] = b'1';
        let taken = Paper.number_is_right(registration, &wider);
        demand(!taken, "a number behind a one")?;
        right += usize::from(said);
    }
    demand(right == 1, "one pair of check digits")
}

/// Neither a number nor its type.
fn no_number_is_guarded(file: &MadeFile) -> Result<(), String> {
    for (at, line) in file.lines.iter().enumerate() {
        let guarded = guarded_places(file.line_at(at));
        let covers = |field: Field, place: usize| (field.first - 1..=field.last).contains(&place);
        let mut fields = table::registrations(line.kind).into_iter();
        let claimed = fields.any(|field| guarded.iter().any(|place| covers(field, *place)));
        demand(!claimed, "places without a claim")?;
    }
    Ok(())
}

fn demand(holds: bool, claim: &str) -> Result<(), String> {
    if holds {
        return Ok(());
    }
    Err(format!("{claim}: not as request 7 says"))
}
