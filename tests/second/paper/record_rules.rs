//! The tests of one record alone, in the order of document 01, and the test of
//! one field, which lines and writer calls have too.

use super::answers::Verdict;
use super::calendar::Calendar;
use super::digit_strings::{CURRENCY, CURRENCY_PLACE};
use super::layout_table::{self as table, Entry, Field, BOLETO_FORMS, CREDIT_FORMS};
use super::layout_table::{COLLECTION_FORM, COLLECTION_SERVICE};
use super::layout_table::{CREDIT_SERVICE, SEGMENT_PLACE, TYPE_PLACE};
use super::lines::RECORD_BYTES;
use super::numbers::{BLANK_BEFORE_TEXT, NON_DIGIT, NO_DATE_OR_TIME, OUTPUT_TOO_SHORT};
use super::numbers::{OUTSIDE_DOMAIN, WRONG_BYTE, WRONG_FIXED_CONTENT, WRONG_LENGTH};
use super::numbers::{WRONG_SEGMENT, WRONG_TYPE};
use super::record_kinds::{Direction, RecordKind, Subject};
use super::registration::RegistrationRules;
use super::Paper;

const FIRST_PRINTABLE: u8 = 32;
pub const LAST_PRINTABLE: u8 = 126;

/// Number and place of a refusal.
pub type Refusal = (u32, usize);

/// A record to be tested: what stands at its places, and the fields for which
/// the caller's number is too wide, so that its digits are not all there.
pub struct Draft {
    pub bytes: Vec<u8>,
    pub too_wide: Vec<Field>,
}

impl Draft {
    /// Of bytes that are read, nothing is too wide.
    pub fn of_bytes(bytes: &[u8]) -> Draft {
        Draft {
            bytes: bytes.to_vec(),
            too_wide: Vec::new(),
        }
    }
}

/// A row of document 01's numbers that can refuse a record.
#[derive(Clone, Copy, PartialEq, Eq)]
pub enum Row {
    Length,
    Bytes,
    Type,
    Segment,
    Field(Field),
    Room(usize),
}

/// In the order in which they are tested; `room` is the output's size where
/// the record is written.
fn rows_in_order(kind: RecordKind, room: Option<usize>) -> Vec<Row> {
    let mut rows = vec![Row::Length, Row::Bytes, Row::Type, Row::Segment];
    rows.extend(table::fields(kind).into_iter().map(Row::Field));
    rows.extend(room.map(Row::Room));
    rows
}

pub trait RecordRules: Calendar + RegistrationRules {
    fn record_verdict(&self, subject: Subject, draft: &Draft, room: Option<usize>) -> Verdict {
        let mut rows = self.record_rows(subject.kind, room).into_iter();
        let refusal = rows.find_map(|row| self.record_refusal(row, subject, draft));
        match refusal {
            Some((number, place)) => Verdict::Refused {
                number,
                line: 0,
                place,
            },
            None => Verdict::Accepted,
        }
    }

    fn record_rows(&self, kind: RecordKind, room: Option<usize>) -> Vec<Row> {
        rows_in_order(kind, room)
    }

    fn record_refusal(&self, row: Row, subject: Subject, draft: &Draft) -> Option<Refusal> {
        let bytes = &draft.bytes;
        match row {
            Row::Length => (bytes.len() != RECORD_BYTES).then_some((WRONG_LENGTH, 0)),
            Row::Bytes => self.byte_refusal(bytes),
            Row::Type => {
                let wrong = [bytes[TYPE_PLACE - 1]] != subject.kind.record_type();
                wrong.then_some((WRONG_TYPE, TYPE_PLACE))
            }
            Row::Segment => {
                let right = self.has_segment(subject, bytes[SEGMENT_PLACE - 1]);
                (!right).then_some((WRONG_SEGMENT, SEGMENT_PLACE))
            }
            Row::Field(field) => self.field_refusal(field, subject, draft),
            Row::Room(room) => (room < RECORD_BYTES).then_some((OUTPUT_TOO_SHORT, 0)),
        }
    }

    /// At the first wrong byte.
    fn byte_refusal(&self, record: &[u8]) -> Option<Refusal> {
        let before = record.iter().position(|byte| !self.is_printable(*byte))?;
        Some((WRONG_BYTE, before + 1))
    }

    fn is_printable(&self, byte: u8) -> bool {
        (FIRST_PRINTABLE..=LAST_PRINTABLE).contains(&byte)
    }

    /// Only details have a segment. A record alone may be a Z in either
    /// direction: only a file's order binds Z to returns.
    fn has_segment(&self, subject: Subject, byte: u8) -> bool {
        subject
            .kind
            .segment()
            .map_or(true, |segment| segment == [byte])
    }

    fn field_refusal(&self, field: Field, subject: Subject, draft: &Draft) -> Option<Refusal> {
        self.refusal_of_field(field, subject, draft)
    }

    /// By the test that the field's entry asks for.
    fn refusal_of_field(&self, field: Field, subject: Subject, draft: &Draft) -> Option<Refusal> {
        if field.entry == Entry::Service {
            return self.pair_refusal(field, subject, draft);
        }
        if field.entry == Entry::OptionalNumber {
            return self.optional_number_refusal(field, subject, draft);
        }
        if field.entry == Entry::Identifier {
            return self.character_refusal(field, subject, &draft.bytes);
        }
        if draft.too_wide.contains(&field) {
            return Some((self.number_when_too_wide(field)?, field.first));
        }
        let content = field.of(&draft.bytes);
        if field.entry == Entry::Barcode {
            return self.barcode_refusal(field, content);
        }
        let right = self.is_right(field, subject, content);
        (!right).then(|| (number_of_entry(field.entry), field.first))
    }

    fn number_when_too_wide(&self, field: Field) -> Option<u32> {
        match field.entry {
            Entry::Date | Entry::Time => Some(NO_DATE_OR_TIME),
            Entry::OneOf(_) => Some(OUTSIDE_DOMAIN),
            // The pair is one test, and that stands at the service.
            Entry::Form => None,
            _ => Some(NON_DIGIT),
        }
    }

    /// All digits are the number, and all blanks say that it is not given, in
    /// either direction and whatever stands elsewhere. A mix is neither.
    fn optional_number_refusal(&self, field: Field, _: Subject, draft: &Draft) -> Option<Refusal> {
        let content = field.of(&draft.bytes);
        let fits = !draft.too_wide.contains(&field);
        let right = fits && (all_digits(content) || all_blank(content));
        (!right).then_some((NON_DIGIT, field.first))
    }

    /// Whether the content is what the table enters for the field. Barcodes,
    /// pairs, CPF and CNPJ, and numbers that may be not given have tests of their
    /// own.
    fn is_right(&self, field: Field, subject: Subject, content: &[u8]) -> bool {
        match field.entry {
            Entry::Number | Entry::Code => all_digits(content),
            Entry::Text => content[0] != b' ' || all_blank(content),
            Entry::Date => self.has_date(content),
            Entry::Time => self.has_time(content),
            Entry::Blank => all_blank(content),
            Entry::BlankInRemittance => {
                subject.direction == Direction::Return || all_blank(content)
            }
            Entry::Exact(wanted) => content == wanted,
            Entry::OneOf(domain) => domain.contains(&content[0]),
            Entry::Free | Entry::OptionalNumber | Entry::Identifier => true,
            Entry::Barcode | Entry::Service | Entry::Form => true,
        }
    }

    /// The digits come first: a currency that is no digit is 8 as well.
    fn barcode_refusal(&self, field: Field, content: &[u8]) -> Option<Refusal> {
        let non_digit = (!all_digits(content)).then_some((NON_DIGIT, field.first));
        non_digit.or(currency_refusal(field, content))
    }

    /// Service and form are one test at the service, whichever half is wrong.
    fn pair_refusal(&self, service: Field, subject: Subject, draft: &Draft) -> Option<Refusal> {
        let form = table::form_of(subject.kind)?;
        let wide = [service, form].map(|half| draft.too_wide.contains(&half));
        let halves = [service, form].map(|half| half.of(&draft.bytes));
        let right = wide == [false, false] && is_pair(halves, subject.direction);
        (!right).then_some((OUTSIDE_DOMAIN, service.first))
    }
}

impl RecordRules for Paper {}

/// The number of a field that does not have what its entry wants.
fn number_of_entry(entry: Entry) -> u32 {
    match entry {
        Entry::Blank | Entry::BlankInRemittance | Entry::Exact(_) => WRONG_FIXED_CONTENT,
        Entry::Text => BLANK_BEFORE_TEXT,
        Entry::OneOf(_) | Entry::Service | Entry::Form => OUTSIDE_DOMAIN,
        Entry::Date | Entry::Time => NO_DATE_OR_TIME,
        Entry::Number | Entry::OptionalNumber | Entry::Identifier => NON_DIGIT,
        Entry::Barcode | Entry::Code | Entry::Free => NON_DIGIT,
    }
}

pub fn currency_refusal(field: Field, content: &[u8]) -> Option<Refusal> {
    let offset = CURRENCY_PLACE - 1;
    let wrong = content[offset] != CURRENCY;
    wrong.then_some((OUTSIDE_DOMAIN, field.first + offset))
}

fn is_pair([service, form]: [&[u8]; 2], direction: Direction) -> bool {
    let credit = service == CREDIT_SERVICE && CREDIT_FORMS.contains(&form);
    let boleto = service == direction.boleto_service() && BOLETO_FORMS.contains(&form);
    let collection = service == COLLECTION_SERVICE && form == COLLECTION_FORM;
    credit || boleto || collection
}

pub fn all_digits(content: &[u8]) -> bool {
    content.iter().all(u8::is_ascii_digit)
}

pub fn all_blank(content: &[u8]) -> bool {
    content.iter().all(|byte| *byte == b' ')
}
