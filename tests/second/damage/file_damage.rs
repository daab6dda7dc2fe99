//! How a good file is damaged: in one place of one line, in the order of its
//! lines, or in the bytes as a whole.

use crate::damage::collection_flaws::spoil_code;
use crate::damage::line_flaws::{self, WRONG_LINE_ENDS};
use crate::damage::record_flaws::{
    self, fields_to_spoil, known_contents_of, likely_byte, CODES, UNPRINTABLE,
};
use crate::damage::registration_flaws::{any_wrong_characters, any_wrong_number, put_typed};
use crate::making::good_files::{
    any_file, good_pair, put_general_check, record_for_a_file, MadeFile, MadeLine,
};
use crate::making::random::Random;
use crate::making::registrations::TYPES;
use crate::paper::file_state::BATCH_KINDS;
use crate::paper::layout_table as table;
use crate::paper::lines::{LINE_BYTES, LINE_END, RECORD_BYTES};
use crate::paper::places::{
    Part, AMOUNT_OF_A, AMOUNT_OF_J, AMOUNT_OF_O, BANK, BARCODE, BARCODE_CENTS, BATCH_NUMBER,
    BATCH_RECORDS, BATCH_SUM, CODE, DETAIL_NUMBER, DIRECTION, DISCOUNT, FACTOR, FILE_BATCHES,
    FILE_RECORDS, FINE, NOMINAL, SEGMENT, SERVICE_AND_FORM, TYPE,
};
use crate::paper::record_kinds::{RecordKind, Subject, RECORD_KINDS};

pub type Damage = fn(&mut Random, &mut MadeFile);

/// Damages of one line, which leave its kind and its turn as they are.
pub const LINE_DAMAGES: [Damage; 11] = [
    any_byte,
    unprintable_byte,
    other_digit,
    swapped_neighbours,
    line_end,
    type_or_segment,
    spoiled_field,
    known_content,
    boleto_digits,
    collection_code,
    registration,
];

/// Damages of what lines there are and how they are taken.
pub const ORDER_DAMAGES: [Damage; 9] = [
    lost_line,
    doubled_line,
    swapped_lines,
    foreign_line,
    line_of_any_kind,
    stray_z,
    batch_of_the_other_kind,
    other_direction,
    emptied_batch,
];

/// Around one line and its line end.
const LENGTHS_TO_APPEND: [usize; 9] = [1, 2, 7, 240, 241, 242, 243, 484, 1_000];
/// The number, its characters, or the type before it.
const DAMAGES_OF_A_REGISTRATION: usize = 3;

fn any_line<'a>(random: &mut Random, file: &'a mut MadeFile) -> &'a mut MadeLine {
    let at = random.below(file.lines.len());
    &mut file.lines[at]
}

fn any_line_of(random: &mut Random, file: &MadeFile, kind: RecordKind) -> Option<usize> {
    let positions = file.positions(kind);
    (!positions.is_empty()).then(|| random.pick(&positions))
}

fn any_byte(random: &mut Random, file: &mut MadeFile) {
    let at = random.below(LINE_BYTES);
    any_line(random, file).bytes[at] = likely_byte(random);
}

fn unprintable_byte(random: &mut Random, file: &mut MadeFile) {
    let at = random.below(LINE_BYTES);
    any_line(random, file).bytes[at] = random.pick(UNPRINTABLE);
}

/// In a field that other lines or other fields depend on.
fn other_digit(random: &mut Random, file: &mut MadeFile) {
    let line = any_line(random, file);
    let part = random.pick(&dependent_parts(line.kind));
    line_flaws::change_digit(random, part, &mut line.bytes);
}

fn dependent_parts(kind: RecordKind) -> Vec<Part> {
    let own: &[Part] = match kind {
        RecordKind::A => &[DETAIL_NUMBER, AMOUNT_OF_A],
        RecordKind::J => &[DETAIL_NUMBER, BARCODE, NOMINAL, DISCOUNT, FINE, AMOUNT_OF_J],
        RecordKind::O => &[DETAIL_NUMBER, CODE, AMOUNT_OF_O],
        RecordKind::B | RecordKind::J52 | RecordKind::Z => &[DETAIL_NUMBER],
        RecordKind::BatchTrailer => &[BATCH_RECORDS, BATCH_SUM],
        RecordKind::FileTrailer => &[FILE_BATCHES, FILE_RECORDS],
        RecordKind::FileHeader | RecordKind::BatchHeader => &[],
    };
    let mut parts = vec![BANK, BATCH_NUMBER, TYPE];
    parts.extend_from_slice(own);
    parts
}

/// Within a line, its line end included.
fn swapped_neighbours(random: &mut Random, file: &mut MadeFile) {
    let at = random.below(LINE_BYTES - 1);
    any_line(random, file).bytes.swap(at, at + 1);
}

fn line_end(random: &mut Random, file: &mut MadeFile) {
    let end = random.pick(&WRONG_LINE_ENDS);
    any_line(random, file).bytes[RECORD_BYTES..].copy_from_slice(end);
}

fn type_or_segment(random: &mut Random, file: &mut MadeFile) {
    let part = random.pick(&[TYPE, SEGMENT]);
    let code = random.pick(CODES);
    part.put(&mut any_line(random, file).bytes, &[code]);
}

fn spoiled_field(random: &mut Random, file: &mut MadeFile) {
    let direction = file.direction;
    let line = any_line(random, file);
    let kind = line.kind;
    let field = random.pick(&fields_to_spoil(Subject { kind, direction }));
    record_flaws::spoil(random, field, &mut line.bytes);
}

/// Dates, times, texts and codes at the edge of what is right.
fn known_content(random: &mut Random, file: &mut MadeFile) {
    let line = any_line(random, file);
    let fields = table::fields(line.kind).into_iter();
    let known = fields.flat_map(|field| {
        let contents = known_contents_of(field).into_iter();
        contents.map(move |content| (field, content))
    });
    let known: Vec<_> = known.collect();
    let (field, content) = &known[random.below(known.len())];
    field.put(&mut line.bytes, content);
}

/// The general check stays wrong as often as it is made right again.
fn boleto_digits(random: &mut Random, file: &mut MadeFile) {
    let line = match any_line_of(random, file, RecordKind::J) {
        Some(at) => &mut file.lines[at].bytes,
        None => return any_byte(random, file),
    };
    if random.coin() {
        line_flaws::change_digit(random, BARCODE, line);
    } else {
        let part = random.pick(&[FACTOR, BARCODE_CENTS, NOMINAL, DISCOUNT, FINE]);
        line_flaws::change_number(random, part, line);
    }
    if random.coin() {
        put_general_check(line);
    }
}

/// A code that is wrong, or nearly so.
fn collection_code(random: &mut Random, file: &mut MadeFile) {
    match any_line_of(random, file, RecordKind::O) {
        Some(at) => spoil_code(random, &mut file.lines[at].bytes),
        None => any_byte(random, file),
    }
}

/// The number is wrong or has wrong characters, or the type before it is another.
fn registration(random: &mut Random, file: &mut MadeFile) {
    let line = any_line(random, file);
    let kind = line.kind;
    let fields = table::registrations(kind);
    if fields.is_empty() {
        return any_byte(random, file);
    }
    let field = random.pick(&fields);
    let typed = match random.below(DAMAGES_OF_A_REGISTRATION) {
        0 => any_wrong_number(random, field.width()),
        1 => any_wrong_characters(random, field.width()),
        _ => (random.pick(&TYPES), field.of(&line.bytes).to_vec()),
    };
    put_typed(kind, field, &typed, &mut line.bytes);
}

fn lost_line(random: &mut Random, file: &mut MadeFile) {
    let at = random.below(file.lines.len());
    file.lines.remove(at);
}

fn doubled_line(random: &mut Random, file: &mut MadeFile) {
    let at = random.below(file.lines.len());
    let line = file.lines[at].clone();
    file.lines.insert(at, line);
}

fn swapped_lines(random: &mut Random, file: &mut MadeFile) {
    let one = random.below(file.lines.len());
    let other = if random.coin() {
        (one + 1) % file.lines.len()
    } else {
        random.below(file.lines.len())
    };
    file.lines.swap(one, other);
}

/// A line of another file, put between two lines or in the place of one.
fn foreign_line(random: &mut Random, file: &mut MadeFile) {
    let mut others = any_file(random).lines;
    let line = others.swap_remove(random.below(others.len()));
    put_in(random, file, line);
}

fn put_in(random: &mut Random, file: &mut MadeFile, line: MadeLine) {
    let at = random.below(file.lines.len());
    if random.coin() {
        file.lines.insert(at, line);
    } else {
        file.lines[at] = line;
    }
}

fn line_of_any_kind(random: &mut Random, file: &mut MadeFile) {
    let kind = random.pick(&RECORD_KINDS);
    let line = good_line(random, kind, file);
    put_in(random, file, line);
}

fn good_line(random: &mut Random, kind: RecordKind, file: &MadeFile) -> MadeLine {
    let mut bytes = record_for_a_file(random, kind, file.direction);
    bytes.extend_from_slice(LINE_END);
    MadeLine { kind, bytes }
}

/// Behind any record of a batch, a Z too, in a return or not.
fn stray_z(random: &mut Random, file: &mut MadeFile) {
    let kind = RecordKind::Z;
    let line = good_line(random, kind, file);
    let at = random.below(file.lines.len()) + 1;
    file.lines.insert(at, line);
}

fn batch_of_the_other_kind(random: &mut Random, file: &mut MadeFile) {
    let kind = random.pick(&BATCH_KINDS);
    let pair = good_pair(random, kind, file.direction);
    if let Some(header) = any_line_of(random, file, RecordKind::BatchHeader) {
        SERVICE_AND_FORM.put(&mut file.lines[header].bytes, &pair);
    }
}

fn other_direction(random: &mut Random, file: &mut MadeFile) {
    let header = &mut file.lines[0].bytes;
    DIRECTION.put(header, &[random.pick(b"12123 ")]);
}

/// A batch loses all its payments, or its header and trailer too.
fn emptied_batch(random: &mut Random, file: &mut MadeFile) {
    let kept = usize::from(random.coin());
    let header = any_line_of(random, file, RecordKind::BatchHeader);
    let trailers = file.positions(RecordKind::BatchTrailer).into_iter();
    let trailer = trailers.filter(|at| Some(*at) > header).min();
    if let (Some(header), Some(trailer)) = (header, trailer) {
        file.lines.drain(header + kept..trailer + 1 - kept);
    }
}

/// Bytes lost, added or moved without regard to lines.
pub fn damage_bytes(random: &mut Random, bytes: &mut Vec<u8>) {
    match random.below(8) {
        0 => bytes.truncate(random.below(bytes.len() + 1)),
        1 => cut_near_a_line_end(random, bytes),
        2 | 3 => append(random, bytes),
        4 => bytes.retain(|byte| *byte != b'\r'),
        5 => bytes.retain(|byte| *byte != b'\n'),
        6 => {
            bytes.remove(random.below(bytes.len()));
        }
        _ => bytes.insert(random.below(bytes.len() + 1), random.pick(b" \n\r0")),
    }
}

fn cut_near_a_line_end(random: &mut Random, bytes: &mut Vec<u8>) {
    let lines = random.between(0, bytes.len() / LINE_BYTES);
    let kept = lines * LINE_BYTES + random.between(0, 4);
    bytes.truncate(kept.saturating_sub(2));
}

/// Blanks, line ends, or the file's own first or last bytes.
fn append(random: &mut Random, bytes: &mut Vec<u8>) {
    let length = random.pick(&LENGTHS_TO_APPEND);
    let more = match random.below(4) {
        0 => vec![b' '; length],
        1 => LINE_END.iter().copied().cycle().take(length).collect(),
        2 => bytes[..length.min(bytes.len())].to_vec(),
        _ => bytes[bytes.len().saturating_sub(length)..].to_vec(),
    };
    bytes.extend(more);
}
