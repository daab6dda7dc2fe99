//! Payloads that are no calls of a file in parts, each made from such calls by
//! one change. Nothing of them is done, however good the parts before it are.

use crate::asking::part_calls::{BYTES_BEFORE_A_PART, END, PART, PART_LENGTH_DIGITS};
use crate::making::random::Random;

const LETTERS_TO_TRY: &[u8] = b"-,*/0123456789ETPLMX \r\n\x00\xFF";
const NO_DIGITS_TO_TRY: &[u8] = b" +-./:A\n\x00\xFF";

/// What a change is given: the payload, and where one of its parts begins.
pub type Change = fn(&mut Random, &mut Vec<u8>, usize);

pub const CHANGES: [Change; 9] = [
    letter,
    no_letter,
    non_digit,
    other_length,
    digit_lost,
    length_cut_short,
    part_cut_short,
    stray_byte_at_the_end,
    length_behind_the_end,
];

fn letter(random: &mut Random, payload: &mut Vec<u8>, at: usize) {
    payload[at] = random.pick(LETTERS_TO_TRY);
}

fn no_letter(_: &mut Random, payload: &mut Vec<u8>, at: usize) {
    payload.remove(at);
}

fn non_digit(random: &mut Random, payload: &mut Vec<u8>, at: usize) {
    payload[at + random.between(1, PART_LENGTH_DIGITS)] = random.pick(NO_DIGITS_TO_TRY);
}

/// Mostly longer than all that is left.
fn other_length(random: &mut Random, payload: &mut Vec<u8>, at: usize) {
    let digit = &mut payload[at + random.between(1, PART_LENGTH_DIGITS)];
    *digit = random.other_digit(*digit);
}

fn digit_lost(random: &mut Random, payload: &mut Vec<u8>, at: usize) {
    payload.remove(at + random.between(1, PART_LENGTH_DIGITS));
}

fn length_cut_short(random: &mut Random, payload: &mut Vec<u8>, at: usize) {
    payload.truncate(at + random.between(1, PART_LENGTH_DIGITS));
}

/// By one byte, by all, or somewhere between.
fn part_cut_short(random: &mut Random, payload: &mut Vec<u8>, at: usize) {
    if payload.last() == Some(&END) {
        payload.pop();
    }
    let least = at + BYTES_BEFORE_A_PART;
    let most = payload.len() - 1;
    let inside = random.between(least.min(most), most);
    payload.truncate(random.pick(&[least, inside, most]));
}

fn stray_byte_at_the_end(random: &mut Random, payload: &mut Vec<u8>, _: usize) {
    payload.push(random.pick(LETTERS_TO_TRY));
}

/// A part is announced, of one byte, that does not come.
fn length_behind_the_end(_: &mut Random, payload: &mut Vec<u8>, _: usize) {
    payload.push(PART);
    payload.extend_from_slice(b"000001");
}
