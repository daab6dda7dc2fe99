//! Ways to cut a file into parts.

use crate::making::random::Random;
use crate::paper::lines::LINE_BYTES;

/// Parts as document 02 names them, beside one byte.
pub const NOTHING: &[u8] = b"";
pub const FIVE_LINES_AND_A_HALF: usize = 5 * LINE_BYTES + LINE_BYTES / 2;
/// Around half a line, a record, a line and several.
const LENGTHS: [usize; 13] = [
    7,
    64,
    120,
    121,
    122,
    240,
    241,
    242,
    243,
    484,
    605,
    FIVE_LINES_AND_A_HALF - 1,
    FIVE_LINES_AND_A_HALF,
];
const MOST_CUTS: usize = 12;
const EMPTY_ONCE_IN: usize = 4;

pub fn any_cutting<'a>(random: &mut Random, bytes: &'a [u8]) -> Vec<&'a [u8]> {
    match random.below(8) {
        0 => vec![bytes],
        1 => in_lengths(bytes, random.pick(&LENGTHS)),
        2 => in_lines_from(bytes, random.between(1, LINE_BYTES)),
        3 => in_lines_from(bytes, random.pick(&[1, LINE_BYTES - 1, LINE_BYTES])),
        _ => at_random(random, bytes),
    }
}

/// All parts but the last have this length.
pub fn in_lengths(bytes: &[u8], length: usize) -> Vec<&[u8]> {
    bytes.chunks(length).collect()
}

/// Behind the first part, all are as long as a line.
fn in_lines_from(bytes: &[u8], first: usize) -> Vec<&[u8]> {
    let places = (first..bytes.len()).step_by(LINE_BYTES);
    cut_at(bytes, &places.collect::<Vec<usize>>())
}

/// Few parts or many, some of them empty.
fn at_random<'a>(random: &mut Random, bytes: &'a [u8]) -> Vec<&'a [u8]> {
    let mut places = Vec::new();
    for _ in 0..random.between(1, MOST_CUTS) {
        let place = any_place(random, bytes.len());
        places.push(place);
        if random.below(EMPTY_ONCE_IN) == 0 {
            places.push(place);
        }
    }
    places.sort_unstable();
    cut_at(bytes, &places)
}

/// Anywhere, or at a line end or one byte beside it.
fn any_place(random: &mut Random, bytes: usize) -> usize {
    if random.coin() {
        return random.below(bytes + 1);
    }
    let line_end = random.between(0, bytes / LINE_BYTES) * LINE_BYTES;
    let beside = (line_end + random.below(3)).saturating_sub(1);
    beside.min(bytes)
}

/// The places are in order. At one that comes twice there is an empty part.
pub fn cut_at<'a>(bytes: &'a [u8], places: &[usize]) -> Vec<&'a [u8]> {
    let mut parts = Vec::new();
    let mut begin = 0;
    for place in places {
        parts.push(&bytes[begin..*place]);
        begin = *place;
    }
    parts.push(&bytes[begin..]);
    parts
}
