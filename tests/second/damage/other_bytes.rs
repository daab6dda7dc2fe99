//! The bytes that are put at a guarded place instead of the one there.

use std::ops::RangeInclusive;

use crate::making::random::Random;
use crate::paper::layout_table::{SEGMENT_PLACE, TYPE_PLACE};

/// Of the 255 other bytes, so many are tried at each place.
pub const BYTES_TRIED: usize = 16;
/// One of each is always among them: a digit, the blank, a letter, and both
/// sides of what is printable.
const ALWAYS: [RangeInclusive<u8>; 5] =
    [b'0'..=b'9', b' '..=b' ', b'A'..=b'Z', 0..=31, 127..=u8::MAX];
/// And where a line says what it is, all that another line says there.
const TYPES: &[u8] = b"01359";
const SEGMENTS: &[u8] = b"ABJOZ";

/// Sixteen bytes, none of them twice and none the byte that stands there.
pub fn other_bytes(random: &mut Random, place: usize, byte: u8) -> Vec<u8> {
    let mut candidates = one_of_each(random, byte);
    candidates.extend_from_slice(match place {
        TYPE_PLACE => TYPES,
        SEGMENT_PLACE => SEGMENTS,
        _ => &[],
    });
    let mut all: Vec<u8> = (0..=u8::MAX).collect();
    random.shuffle(&mut all);
    candidates.extend(all);
    let mut others = Vec::new();
    for candidate in candidates {
        if candidate != byte && !others.contains(&candidate) {
            others.push(candidate);
        }
    }
    others.truncate(BYTES_TRIED);
    others
}

/// No second blank where the blank itself is replaced.
fn one_of_each(random: &mut Random, byte: u8) -> Vec<u8> {
    let mut picked = Vec::new();
    for range in ALWAYS {
        let others: Vec<u8> = range.filter(|other| *other != byte).collect();
        if !others.is_empty() {
            picked.push(random.pick(&others));
        }
    }
    picked
}
