//! The whole comparison: the second program's own claims, every request, and
//! what the run prints of them.

use crate::cases::streams;
use crate::checking::tally::Tally;
use crate::checking::{absence_claims, digit_claims, file_claims, record_claims};
use crate::checking::{collection_claims, registration_claims, writer_claims};
use crate::comparing::compare;

/// Says what agrees, or how the first request that does not is answered.
pub fn check(command: &[String]) -> Result<(), String> {
    let barcodes = streams::accepted_barcodes();
    let guarded = digit_claims::check(&barcodes)?;
    let codes = collection_claims::check(&streams::accepted_codes())?;
    let fixed_refused = record_claims::check()?;
    let absent = absence_claims::check()?;
    let registrations = registration_claims::check()?;
    let files_refused = file_claims::check()?;
    let files_written = writer_claims::check()?;
    let mut tally = Tally::default();
    let difference = compare::first_difference(command, streams::streams(), &mut tally)
        .map_err(|error| format!("cannot talk to {}: {error}", command[0]))?;
    if let Some(difference) = difference {
        return Err(difference.to_string());
    }
    println!(
        "changed digits at guarded places, all refused: {}",
        guarded.guarded_refused
    );
    println!(
        "changed digits at unguarded places, accepted: {} in barcodes, {} in lines",
        guarded.unguarded_accepted_in_barcodes, guarded.unguarded_accepted_in_lines
    );
    println!(
        "collection codes and lines worked out apart, all as they should be: {}",
        codes.vectors
    );
    println!(
        "changed digits of collection codes and lines with a claim, all refused: {}",
        codes.claimed_refused
    );
    println!(
        "changed digits without a claim, accepted: {} in codes, {} in their lines, {} of identifiers",
        codes.accepted_in_codes, codes.accepted_in_lines, codes.accepted_at_the_identifier
    );
    println!("changed bytes at fixed places of records, all refused: {fixed_refused}");
    println!(
        "changed bytes of numbers that may be not given: {} accepted, {} refused",
        absent.accepted, absent.refused
    );
    println!("CPF and CNPJ worked out apart, all as they should be: {registrations}");
    println!("changed bytes at guarded places of files, all refused: {files_refused}");
    println!("files written as they are made, byte for byte: {files_written}");
    println!("{tally}");
    let gaps = tally.gaps();
    if !gaps.is_empty() {
        return Err(gaps.join("\n"));
    }
    println!("second: {} requests agree", tally.requests());
    Ok(())
}
