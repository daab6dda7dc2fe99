//! 'The layout table' of document 01: for each kind of record its fields, in the
//! order of the paper's list. Places count from 1.

use std::ops::Range;

use super::record_kinds::RecordKind;

pub const TYPE_PLACE: usize = 8;
pub const SEGMENT_PLACE: usize = 14;

pub const CREDIT_SERVICE: &[u8] = b"20";
pub const CREDIT_FORMS: [&[u8]; 4] = [b"01", b"10", b"41", b"45"];
pub const BOLETO_FORMS: [&[u8]; 2] = [b"30", b"31"];
/// One pair in both directions (request 5 of document 02).
pub const COLLECTION_SERVICE: &[u8] = b"29";
pub const COLLECTION_FORM: &[u8] = b"11";

/// What the table enters for a field.
#[derive(Clone, Copy, PartialEq, Eq)]
pub enum Entry {
    /// N.
    Number,
    /// N too, but blank where it is not given (request 2 of document 02).
    OptionalNumber,
    /// A CPF or CNPJ number, which is no quantity and is read as bytes. What it
    /// may hold goes by the type before it (request 7 of document 02).
    Identifier,
    Barcode,
    /// The code of an O: digits that are read as bytes, and no currency among them
    /// (request 5 of document 02).
    Code,
    /// T.
    Text,
    /// F.
    Free,
    /// D.
    Date,
    Time,
    /// K.
    Blank,
    /// O.
    BlankInRemittance,
    /// Type, segment and zeros too.
    Exact(&'static [u8]),
    OneOf(&'static [u8]),
    /// Service and form are two fields and one test.
    Service,
    Form,
}

#[derive(Clone, Copy, PartialEq, Eq)]
pub struct Field {
    pub first: usize,
    pub last: usize,
    pub entry: Entry,
}

const fn field(first: usize, last: usize, entry: Entry) -> Field {
    Field { first, last, entry }
}

impl Field {
    pub fn width(self) -> usize {
        self.last - self.first + 1
    }

    pub fn range(self) -> Range<usize> {
        self.first - 1..self.last
    }

    pub fn of(self, record: &[u8]) -> &[u8] {
        &record[self.range()]
    }

    pub fn put(self, record: &mut [u8], content: &[u8]) {
        record[self.range()].copy_from_slice(content);
    }

    /// Whether the field is read as a number; the others are read as bytes.
    pub fn is_number(self) -> bool {
        let quantity = matches!(
            self.entry,
            Entry::Number | Entry::OptionalNumber | Entry::Date | Entry::Time
        );
        let code = matches!(self.entry, Entry::OneOf(_) | Entry::Service | Entry::Form);
        quantity || code
    }

    /// What the writer fills in, whatever the caller gives.
    pub fn fixed_content(self) -> Option<Vec<u8>> {
        match self.entry {
            Entry::Blank => Some(vec![b' '; self.width()]),
            Entry::Exact(content) => Some(content.to_vec()),
            _ => None,
        }
    }
}

/// The fields of a kind of record from left to right.
pub fn fields(kind: RecordKind) -> Vec<Field> {
    let mut fields = ALL_LINES.to_vec();
    fields.push(field(
        TYPE_PLACE,
        TYPE_PLACE,
        Entry::Exact(kind.record_type()),
    ));
    if kind == RecordKind::FileHeader || kind == RecordKind::BatchHeader {
        fields.extend_from_slice(&BOTH_HEADERS);
    }
    if let Some(segment) = kind.segment() {
        fields.push(DETAIL_NUMBER);
        fields.push(field(SEGMENT_PLACE, SEGMENT_PLACE, Entry::Exact(segment)));
    }
    fields.extend_from_slice(own_fields(kind));
    fields.sort_by_key(|field| field.first);
    fields
}

/// The numbers of a record that may be not given, with their index among all its
/// fields.
pub fn optional_numbers(kind: RecordKind) -> Vec<(usize, Field)> {
    let fields = fields(kind).into_iter().enumerate();
    let optional = fields.filter(|(_, field)| field.entry == Entry::OptionalNumber);
    optional.collect()
}

/// The fields of a record that hold a CPF or a CNPJ, from left to right.
pub fn registrations(kind: RecordKind) -> Vec<Field> {
    let mut fields = fields(kind);
    fields.retain(|field| field.entry == Entry::Identifier);
    fields
}

/// The other half of the pair that begins with the service.
pub fn form_of(kind: RecordKind) -> Option<Field> {
    let mut fields = fields(kind).into_iter();
    fields.find(|field| field.entry == Entry::Form)
}

fn own_fields(kind: RecordKind) -> &'static [Field] {
    match kind {
        RecordKind::FileHeader => &FILE_HEADER,
        RecordKind::BatchHeader => &BATCH_HEADER,
        RecordKind::A => &SEGMENT_A,
        RecordKind::B => &SEGMENT_B,
        RecordKind::J => &SEGMENT_J,
        RecordKind::J52 => &SEGMENT_J52,
        RecordKind::O => &SEGMENT_O,
        RecordKind::Z => &SEGMENT_Z,
        RecordKind::BatchTrailer => &BATCH_TRAILER,
        RecordKind::FileTrailer => &FILE_TRAILER,
    }
}

/// Bank and batch number; the type differs from kind to kind.
const ALL_LINES: [Field; 2] = [field(1, 3, Entry::Number), field(4, 7, Entry::Number)];

const DETAIL_NUMBER: Field = field(9, 13, Entry::Number);

const HOLDER_KIND: Entry = Entry::OneOf(b"012");
const MOVEMENT: Entry = Entry::OneOf(b"09");

const BOTH_HEADERS: [Field; 9] = [
    field(18, 18, HOLDER_KIND),
    field(19, 32, Entry::Identifier),
    field(33, 52, Entry::Text),
    field(53, 57, Entry::Number),
    field(58, 58, Entry::Free),
    field(59, 70, Entry::Number),
    field(71, 71, Entry::Free),
    field(72, 72, Entry::Free),
    field(73, 102, Entry::Text),
];

const FILE_HEADER: [Field; 10] = [
    field(9, 17, Entry::Blank),
    field(103, 132, Entry::Text),
    field(133, 142, Entry::Blank),
    field(143, 143, Entry::OneOf(b"12")),
    field(144, 151, Entry::Date),
    field(152, 157, Entry::Time),
    field(158, 163, Entry::Number),
    field(164, 166, Entry::Number),
    field(167, 171, Entry::Number),
    field(172, 240, Entry::Free),
];

pub const FIRST_OF_BATCH_HEADER: Field = field(9, 9, Entry::Exact(b"C"));
const BATCH_HEADER: [Field; 12] = [
    FIRST_OF_BATCH_HEADER,
    field(10, 11, Entry::Service),
    field(12, 13, Entry::Form),
    field(14, 16, Entry::Number),
    field(17, 17, Entry::Blank),
    field(103, 142, Entry::Text),
    field(143, 172, Entry::Text),
    field(173, 177, Entry::Free),
    field(178, 192, Entry::Text),
    field(193, 212, Entry::Text),
    field(213, 230, Entry::Free),
    field(231, 240, Entry::BlankInRemittance),
];

const SEGMENT_A: [Field; 20] = [
    field(15, 15, MOVEMENT),
    field(16, 17, Entry::Number),
    field(18, 20, Entry::Number),
    field(21, 23, Entry::Number),
    field(24, 28, Entry::Number),
    field(29, 29, Entry::Free),
    field(30, 41, Entry::Number),
    field(42, 42, Entry::Free),
    field(43, 43, Entry::Free),
    field(44, 73, Entry::Text),
    field(74, 93, Entry::Text),
    field(94, 101, Entry::Date),
    field(102, 104, Entry::Free),
    field(105, 119, Entry::Number),
    field(120, 134, Entry::Number),
    field(135, 154, Entry::Free),
    field(155, 162, Entry::OptionalNumber),
    field(163, 177, Entry::OptionalNumber),
    field(178, 230, Entry::Free),
    field(231, 240, Entry::BlankInRemittance),
];

const SEGMENT_B: [Field; 4] = [
    field(15, 17, Entry::Free),
    field(18, 18, HOLDER_KIND),
    field(19, 32, Entry::Identifier),
    field(33, 240, Entry::Free),
];

const SEGMENT_J: [Field; 16] = [
    field(15, 15, MOVEMENT),
    field(16, 17, Entry::Number),
    field(18, 61, Entry::Barcode),
    field(62, 91, Entry::Text),
    field(92, 99, Entry::Date),
    field(100, 114, Entry::Number),
    field(115, 129, Entry::Number),
    field(130, 144, Entry::Number),
    field(145, 152, Entry::Date),
    field(153, 167, Entry::Number),
    field(168, 182, Entry::Exact(b"000000000000000")),
    field(183, 202, Entry::Text),
    field(203, 222, Entry::Free),
    field(223, 224, Entry::Exact(b"09")),
    field(225, 230, Entry::Blank),
    field(231, 240, Entry::BlankInRemittance),
];

const SEGMENT_J52: [Field; 13] = [
    field(15, 15, Entry::Blank),
    field(16, 17, Entry::Number),
    field(18, 19, Entry::Exact(b"52")),
    field(20, 20, HOLDER_KIND),
    field(21, 35, Entry::Identifier),
    field(36, 75, Entry::Text),
    field(76, 76, HOLDER_KIND),
    field(77, 91, Entry::Identifier),
    field(92, 131, Entry::Text),
    field(132, 132, HOLDER_KIND),
    field(133, 147, Entry::Identifier),
    field(148, 187, Entry::Text),
    field(188, 240, Entry::Blank),
];

const SEGMENT_O: [Field; 11] = [
    field(15, 15, MOVEMENT),
    field(16, 17, Entry::Number),
    field(18, 61, Entry::Code),
    field(62, 91, Entry::Text),
    field(92, 99, Entry::Date),
    field(100, 107, Entry::Date),
    field(108, 122, Entry::Number),
    field(123, 142, Entry::Text),
    field(143, 162, Entry::Free),
    field(163, 230, Entry::Blank),
    field(231, 240, Entry::BlankInRemittance),
];

const SEGMENT_Z: [Field; 1] = [field(15, 240, Entry::Free)];

pub const LAST_BLANKS_OF_BATCH_TRAILER: Field = field(66, 230, Entry::Blank);
const BATCH_TRAILER: [Field; 7] = [
    field(9, 17, Entry::Blank),
    field(18, 23, Entry::Number),
    field(24, 41, Entry::Number),
    field(42, 59, Entry::Number),
    field(60, 65, Entry::Number),
    LAST_BLANKS_OF_BATCH_TRAILER,
    field(231, 240, Entry::BlankInRemittance),
];

const FILE_TRAILER: [Field; 5] = [
    field(9, 17, Entry::Blank),
    field(18, 23, Entry::Number),
    field(24, 29, Entry::Number),
    field(30, 35, Entry::Number),
    field(36, 240, Entry::Blank),
];
