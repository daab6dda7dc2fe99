//! Claims of document 01 about digit strings, checked over the second
//! program's own rules and cases: where one fails, the second program is wrong.

use crate::asking::probe::untouched;
use crate::paper::answers::{Answer, Verdict};
use crate::paper::digit_strings::{Conversion, DigitRules, BARCODE_CHECK_PLACE, BARCODE_DIGITS};
use crate::paper::digit_strings::{CURRENCY_PLACE, LINE_CHECK_PLACE, LINE_DIGITS};
use crate::paper::examples::{DOCUMENT_004_LINE, FIELD_CHECKS, GENERAL_CHECKS};
use crate::paper::examples::{PAPER_BARCODE, PAPER_LINE};
use crate::paper::Paper;

const NEARLY_EMPTY_BARCODE: &[u8; BARCODE_DIGITS] = b"00090000000000000000000000000000000000000000";
const DOCUMENT_004_REFUSAL: Verdict = Verdict::Refused {
    number: 42,
    line: 0,
    place: 21,
};

/// This check stands for three remainders, so it guards fewer places.
const WEAK_CHECK: u8 = b'1';

/// How many changes of one digit bore the claims out.
#[derive(Default)]
pub struct GuardedPlaces {
    pub guarded_refused: usize,
    pub unguarded_accepted_in_barcodes: usize,
    pub unguarded_accepted_in_lines: usize,
}

pub fn check(barcodes: &[Vec<u8>]) -> Result<GuardedPlaces, String> {
    proved_examples()?;
    let mut seen = GuardedPlaces::default();
    for barcode in barcodes {
        let line = round_trip(barcode)?;
        seen.unguarded_accepted_in_barcodes += changes_of(
            Conversion::BarcodeToLine,
            barcode,
            &mut seen.guarded_refused,
        )?;
        seen.unguarded_accepted_in_lines +=
            changes_of(Conversion::LineToBarcode, &line, &mut seen.guarded_refused)?;
    }
    // Without an accepted change the claim about guarded places would be empty.
    if seen.unguarded_accepted_in_barcodes == 0 || seen.unguarded_accepted_in_lines == 0 {
        return Err("no change at an unguarded place was accepted".to_string());
    }
    Ok(seen)
}

fn proved_examples() -> Result<(), String> {
    for (field, check) in FIELD_CHECKS {
        demand(Paper.field_check(field) == check, "field check", field)?;
    }
    for (last, check) in GENERAL_CHECKS {
        let mut barcode = NEARLY_EMPTY_BARCODE.to_vec();
        barcode[BARCODE_DIGITS - 1] = last;
        demand(
            Paper.general_check(&barcode) == check,
            "general check",
            &barcode,
        )?;
    }
    let line = round_trip(PAPER_BARCODE)?;
    demand(line == PAPER_LINE, "line of the barcode", PAPER_BARCODE)?;
    let refusal = Paper.digit_verdict(Conversion::LineToBarcode, DOCUMENT_004_LINE, BARCODE_DIGITS);
    demand(
        refusal == DOCUMENT_004_REFUSAL,
        "refusal of the line",
        DOCUMENT_004_LINE,
    )
}

/// An accepted barcode's line is accepted and gives the barcode back.
fn round_trip(barcode: &[u8]) -> Result<Vec<u8>, String> {
    let line =
        accepted(Paper.converted(Conversion::BarcodeToLine, barcode, untouched(LINE_DIGITS)));
    let line = line.ok_or_else(|| failure("acceptance of the barcode", barcode))?;
    let back =
        accepted(Paper.converted(Conversion::LineToBarcode, &line, untouched(BARCODE_DIGITS)));
    demand(
        back.as_deref() == Some(barcode),
        "round trip of the barcode",
        barcode,
    )?;
    Ok(line)
}

fn accepted(answer: Answer) -> Option<Vec<u8>> {
    let accepts = answer.accepts();
    answer.memory.filter(|_| accepts)
}

/// Changes each digit of an accepted string to each other one. Demands the
/// refusal at guarded places and gives the number of changes accepted elsewhere.
fn changes_of(
    conversion: Conversion,
    string: &[u8],
    guarded_refused: &mut usize,
) -> Result<usize, String> {
    let weak = string[conversion.check_place() - 1] == WEAK_CHECK;
    let mut unguarded_accepted = 0;
    for place in 1..=string.len() {
        let guarded = !weak || guarded_by_weak_check(conversion, place);
        for digit in (b'0'..=b'9').filter(|digit| *digit != string[place - 1]) {
            let mut changed = string.to_vec();
            changed[place - 1] = digit;
            let verdict = Paper.digit_verdict(conversion, &changed, conversion.result_digits());
            let accepted = verdict == Verdict::Accepted;
            demand(
                !(guarded && accepted),
                "refusal of a change at a guarded place",
                &changed,
            )?;
            *guarded_refused += usize::from(guarded);
            unguarded_accepted += usize::from(accepted);
        }
    }
    Ok(unguarded_accepted)
}

/// In a line the field checks guard places 1 to 32 whatever the general check is.
fn guarded_by_weak_check(conversion: Conversion, place: usize) -> bool {
    match conversion {
        Conversion::BarcodeToLine => place == CURRENCY_PLACE || place == BARCODE_CHECK_PLACE,
        Conversion::LineToBarcode => place <= LINE_CHECK_PLACE,
    }
}

fn demand(holds: bool, claim: &str, string: &[u8]) -> Result<(), String> {
    if holds {
        Ok(())
    } else {
        Err(failure(claim, string))
    }
}

fn failure(claim: &str, string: &[u8]) -> String {
    format!(
        "{claim} {} is not as document 01 says",
        string.escape_ascii()
    )
}
