//! What can be wrong with one line of a file, each flaw for a number of its
//! own. Two flaws on one line show which of them is tested first.

use crate::damage::collection_flaws::{spoil_identifier, spoil_product};
use crate::damage::due_flaws::spoil_due_date;
use crate::damage::record_flaws::{self, fields_to_spoil, UNPRINTABLE};
use crate::damage::registration_flaws::{any_wrong_number, put_typed};
use crate::making::good_files::{
    put_general_check, MadeFile, MadeLine, LARGEST_AMOUNT, LARGEST_BARCODE_CENTS,
};
use crate::making::random::Random;
use crate::paper::layout_table::{self as table, Field};
use crate::paper::lines::RECORD_BYTES;
use crate::paper::places::{
    Part, AMOUNT_OF_J, BANK, BARCODE_CENTS, BARCODE_CHECK, BATCH_NUMBER, BATCH_RECORDS, BATCH_SUM,
    CODE_CHECK, DETAIL_NUMBER, DISCOUNT, FILE_BATCHES, FILE_RECORDS, FINE, NOMINAL, SEGMENT, TYPE,
};
use crate::paper::record_kinds::{RecordKind, Subject};

#[derive(Clone, Copy, PartialEq, Eq)]
pub enum Flaw {
    DueDate,
    Cents,
    Amount,
    GeneralCheck,
    /// Of the code of an O.
    Product,
    Identifier,
    CodeCheck,
    FirstCount,
    SecondCount,
    Sum,
    /// A CPF or a CNPJ is wrong.
    Registration(Field),
    Field(Field),
    Bank,
    BatchNumber,
    DetailNumber,
    Segment,
    Type,
    Byte,
    LineEnd,
}

/// The check comes last, since the others make it right.
pub const BOLETO_FLAWS: [Flaw; 4] = [Flaw::DueDate, Flaw::Cents, Flaw::Amount, Flaw::GeneralCheck];

/// Here too the check comes last.
pub const CODE_FLAWS: [Flaw; 3] = [Flaw::Product, Flaw::Identifier, Flaw::CodeCheck];

const TYPES: &[u8] = b"0123459 x";
const SEGMENTS: &[u8] = b"ABJOZC 0";
pub const WRONG_LINE_ENDS: [&[u8]; 7] =
    [b"\n\r", b"\n\n", b"\r\r", b"\r ", b" \n", b"  ", b"\x00\n"];

/// All flaws of a kind of line, in an order in which they can be put into it
/// so that none of them undoes another.
pub fn flaws_of(subject: Subject) -> Vec<Flaw> {
    let mut flaws = match subject.kind {
        RecordKind::J => BOLETO_FLAWS.to_vec(),
        RecordKind::O => CODE_FLAWS.to_vec(),
        RecordKind::BatchTrailer => vec![Flaw::FirstCount, Flaw::Sum],
        RecordKind::FileTrailer => vec![Flaw::FirstCount, Flaw::SecondCount],
        kind => table::registrations(kind)
            .into_iter()
            .map(Flaw::Registration)
            .collect(),
    };
    let is_detail = subject.kind.segment().is_some();
    let numbered = if is_detail { SEGMENT.last } else { TYPE.last };
    let fields = fields_to_spoil(subject).into_iter();
    let own_fields = fields.filter(|field| field.first > numbered);
    flaws.extend(own_fields.map(Flaw::Field));
    flaws.extend([Flaw::Bank, Flaw::BatchNumber]);
    if is_detail {
        flaws.extend([Flaw::DetailNumber, Flaw::Segment]);
    }
    flaws.extend([Flaw::Type, Flaw::Byte, Flaw::LineEnd]);
    flaws
}

/// A few of the flaws, in their order.
pub fn some_flaws(random: &mut Random, subject: Subject, count: usize) -> Vec<Flaw> {
    let flaws = flaws_of(subject);
    let mut chosen: Vec<usize> = (0..flaws.len()).collect();
    random.shuffle(&mut chosen);
    chosen.truncate(count);
    chosen.sort_unstable();
    chosen.into_iter().map(|index| flaws[index]).collect()
}

/// Puts flaws, which are in their order, into a line of the file.
pub fn spoil_line(random: &mut Random, file: &mut MadeFile, at: usize, flaws: &[Flaw]) {
    for flaw in flaws {
        put(random, *flaw, &mut file.lines[at]);
    }
}

fn put(random: &mut Random, flaw: Flaw, made: &mut MadeLine) {
    let kind = made.kind;
    let line = &mut made.bytes;
    match flaw {
        Flaw::DueDate => spoil_due_date(random, line),
        Flaw::Cents => spoil_cents(random, line),
        Flaw::Amount => spoil_amount(random, line),
        Flaw::GeneralCheck => change_digit(random, BARCODE_CHECK, line),
        Flaw::Product => spoil_product(random, line),
        Flaw::Identifier => spoil_identifier(random, line),
        Flaw::CodeCheck => change_digit(random, CODE_CHECK, line),
        Flaw::FirstCount if kind == RecordKind::BatchTrailer => {
            change_number(random, BATCH_RECORDS, line);
        }
        Flaw::FirstCount => change_number(random, FILE_BATCHES, line),
        Flaw::SecondCount => change_number(random, FILE_RECORDS, line),
        Flaw::Sum => change_number(random, BATCH_SUM, line),
        Flaw::Registration(field) => {
            let wrong = any_wrong_number(random, field.width());
            put_typed(kind, field, &wrong, line);
        }
        Flaw::Field(field) => record_flaws::spoil(random, field, line),
        Flaw::Bank => spoil_number(random, BANK, line),
        Flaw::BatchNumber => spoil_number(random, BATCH_NUMBER, line),
        Flaw::DetailNumber => spoil_number(random, DETAIL_NUMBER, line),
        Flaw::Segment => SEGMENT.put(line, &[random.pick(SEGMENTS)]),
        Flaw::Type => TYPE.put(line, &[random.pick(TYPES)]),
        Flaw::Byte => line[random.below(RECORD_BYTES)] = random.pick(UNPRINTABLE),
        Flaw::LineEnd => line[RECORD_BYTES..].copy_from_slice(random.pick(&WRONG_LINE_ENDS)),
    }
}

/// Another number, or none.
fn spoil_number(random: &mut Random, part: Part, line: &mut [u8]) {
    match random.below(4) {
        0 => line[part.last - 1] = random.pick(b" /:A"),
        1 => part.put(line, &vec![b' '; part.width()]),
        _ => change_number(random, part, line),
    }
}

/// One more, one less, nothing, or one digit changed.
pub fn change_number(random: &mut Random, part: Part, line: &mut [u8]) {
    let number = u128::from(part.number(line));
    match random.below(4) {
        0 => part.put_number(line, number + 1),
        1 if number > 0 => part.put_number(line, number - 1),
        2 => part.put_number(line, 0),
        _ => change_digit(random, part, line),
    }
}

pub fn change_digit(random: &mut Random, part: Part, line: &mut [u8]) {
    let at = random.between(part.first, part.last) - 1;
    if line[at].is_ascii_digit() {
        line[at] = random.other_digit(line[at]);
    }
}

/// Among the wrong cents are those that agree with the last ten digits of a
/// nominal that has more.
fn spoil_cents(random: &mut Random, line: &mut [u8]) {
    let nominal = NOMINAL.number(line);
    let cents = match random.below(3) {
        _ if nominal > LARGEST_BARCODE_CENTS && random.coin() => {
            nominal % (LARGEST_BARCODE_CENTS + 1)
        }
        0 => nominal + 1,
        1 => 1,
        _ => random.between(1, LARGEST_BARCODE_CENTS as usize) as u64,
    };
    BARCODE_CENTS.put_number(line, u128::from(cents));
    put_general_check(line);
}

/// Among the wrong amounts are those of a discount that was added, of one that
/// was forgotten, and of a difference below zero.
fn spoil_amount(random: &mut Random, line: &mut [u8]) {
    let [nominal, discount, fine] = [NOMINAL, DISCOUNT, FINE].map(|part| part.number(line));
    let gross = nominal + fine;
    match random.below(6) {
        0 => AMOUNT_OF_J.put_number(line, u128::from(gross + discount)),
        1 => AMOUNT_OF_J.put_number(line, u128::from(gross)),
        2 => {
            DISCOUNT.put_number(line, u128::from(gross + 1));
            let below_zero = random.pick(&[0, 1, LARGEST_AMOUNT]);
            AMOUNT_OF_J.put_number(line, u128::from(below_zero));
        }
        3 => {
            let part = random.pick(&[DISCOUNT, FINE]);
            change_number(random, part, line);
        }
        _ => change_number(random, AMOUNT_OF_J, line),
    }
}
