//! What the samples must show, each thing in one of them at least, so that no
//! part of the claim about guarded places goes untried.

use crate::making::good_files::{MadeFile, MadeLine};
use crate::making::guarded_samples::Sample;
use crate::paper::collection_codes::Modulus;
use crate::paper::guarded_places::{WEAK_CHECK, WEAK_CODE_CHECK};
use crate::paper::layout_table::{self as table, Entry};
use crate::paper::places::{part, Part, BARCODE_CENTS, BARCODE_CHECK, DISCOUNT, FACTOR, FINE};
use crate::paper::places::{AMOUNT_OF_O, CODE_CHECK, CODE_IDENTIFIER};
use crate::paper::record_kinds::{Direction, RecordKind};
use crate::paper::record_rules::{all_blank, all_digits};
use crate::paper::registration::{type_before, Registration};
use crate::paper::totals::Movement;

const FORM: Part = part(12, 13);

const DEMANDED: [&str; 54] = [
    "form 01",
    "form 10",
    "form 41",
    "form 45",
    "form 30",
    "form 31",
    "form 11",
    "credit with Z in a return",
    "credit without Z in a return",
    "boleto with Z in a return",
    "boleto without Z in a return",
    "collection without Z in a remittance",
    "collection with Z in a return",
    "collection without Z in a return",
    "collection without cents in a return",
    "live credit in a remittance",
    "live credit in a return",
    "live boleto in a remittance",
    "live boleto in a return",
    "withdrawn credit in a remittance",
    "withdrawn credit in a return",
    "withdrawn boleto in a remittance",
    "withdrawn boleto in a return",
    "live collection in a remittance",
    "live collection in a return",
    "withdrawn collection in a remittance",
    "withdrawn collection in a return",
    "general check 1",
    "another general check",
    "factor 0",
    "due date",
    "cents 0",
    "cents",
    "discount and fine",
    "code check 0 of modulus 11",
    "another code check of modulus 11",
    "code check 0 of modulus 10",
    "another code check of modulus 10",
    "blank T",
    "filled T",
    "blank O in a return",
    "filled O in a return",
    "blank number in a remittance",
    "filled number in a remittance",
    "blank number in a return",
    "filled number in a return",
    "number of type 0 in a remittance",
    "number of type 0 in a return",
    "CPF in a remittance",
    "CPF in a return",
    "CNPJ of digits in a remittance",
    "CNPJ of digits in a return",
    "CNPJ with letters in a remittance",
    "CNPJ with letters in a return",
];

/// The names of what no sample shows.
pub fn unseen(samples: &[Sample]) -> Vec<&'static str> {
    let files = samples.iter().map(|sample| &sample.file);
    let seen: Vec<String> = files.flat_map(sights_of_file).collect();
    let mut unseen = DEMANDED.to_vec();
    unseen.retain(|demanded| !seen.iter().any(|sight| sight == demanded));
    unseen
}

fn sights_of_file(file: &MadeFile) -> Vec<String> {
    let mut sights = Vec::new();
    let is_return = file.direction == Direction::Return;
    let direction = either(is_return, "return", "remittance");
    for (at, line) in file.lines.iter().enumerate() {
        let next = file.lines.get(at + 1).map(|line| line.kind);
        let z = either(next == Some(RecordKind::Z), "with Z", "without Z");
        let bytes = &line.bytes;
        match line.kind {
            RecordKind::BatchHeader => {
                sights.push(format!("form {}", FORM.of(bytes).escape_ascii()));
            }
            RecordKind::B => sights.push(format!("credit {z} in a {direction}")),
            RecordKind::J52 => sights.push(format!("boleto {z} in a {direction}")),
            RecordKind::O => sights.push(format!("collection {z} in a {direction}")),
            _ => {}
        }
        if let Some(payment) = payment_name(line.kind) {
            let withdrawn = Movement::of(bytes) == Movement::Withdrawn;
            let movement = either(withdrawn, "withdrawn", "live");
            sights.push(format!("{movement} {payment} in a {direction}"));
        }
        if line.kind == RecordKind::O {
            let cents = either(AMOUNT_OF_O.number(bytes) == 0, "without", "with");
            sights.push(format!("collection {cents} cents in a {direction}"));
            sights.push(code_sight(bytes));
        }
        if line.kind == RecordKind::J {
            sights.extend(sights_of_boleto(bytes).map(str::to_string));
        }
        sights.extend(sights_of_fields(line, direction));
    }
    sights
}

/// Only the first record of a payment says what it is.
fn payment_name(kind: RecordKind) -> Option<&'static str> {
    match kind {
        RecordKind::A => Some("credit"),
        RecordKind::J => Some("boleto"),
        RecordKind::O => Some("collection"),
        _ => None,
    }
}

fn code_sight(line: &[u8]) -> String {
    let weak = CODE_CHECK.of(line) == [WEAK_CODE_CHECK];
    let check = either(weak, "code check 0", "another code check");
    let by_ten = Modulus::of_identifier(CODE_IDENTIFIER.of(line)[0]) == Some(Modulus::Ten);
    let modulus = either(by_ten, "10", "11");
    format!("{check} of modulus {modulus}")
}

fn sights_of_boleto(line: &[u8]) -> [&'static str; 4] {
    let weak = BARCODE_CHECK.of(line) == [WEAK_CHECK];
    let has_both = DISCOUNT.number(line) != 0 && FINE.number(line) != 0;
    [
        either(weak, "general check 1", "another general check"),
        either(FACTOR.number(line) == 0, "factor 0", "due date"),
        either(BARCODE_CENTS.number(line) == 0, "cents 0", "cents"),
        either(has_both, "discount and fine", "not both"),
    ]
}

fn sights_of_fields(line: &MadeLine, direction: &str) -> Vec<String> {
    let mut sights = Vec::new();
    for field in table::fields(line.kind) {
        let blank = either(all_blank(field.of(&line.bytes)), "blank", "filled");
        if field.entry == Entry::Text {
            sights.push(format!("{blank} T"));
        }
        if field.entry == Entry::BlankInRemittance {
            sights.push(format!("{blank} O in a {direction}"));
        }
        if field.entry == Entry::OptionalNumber {
            sights.push(format!("{blank} number in a {direction}"));
        }
        if field.entry == Entry::Identifier {
            let registration = Registration::of_type(type_before(field, &line.bytes));
            let lettered = !all_digits(field.of(&line.bytes));
            let number = match registration {
                Some(Registration::Cpf) => "CPF",
                Some(Registration::Cnpj) if lettered => "CNPJ with letters",
                Some(Registration::Cnpj) => "CNPJ of digits",
                None => "number of type 0",
            };
            sights.push(format!("{number} in a {direction}"));
        }
    }
    sights
}

fn either(first: bool, one: &'static str, other: &'static str) -> &'static str {
    if first {
        one
    } else {
        other
    }
}
