//! What may be sent for a number and is none: blanks where a number is always
//! given, and mixes of blanks and digits.

use crate::asking::values::{DIGITS_OF_A_VALUE, NOT_GIVEN};
use crate::making::random::Random;

/// What is sent for one number.
pub type Sent = [u8; DIGITS_OF_A_VALUE];

const BLANK: u8 = b' ';
/// What might be taken for blanks, or for 'not given'.
const WHOLLY_OF: &[u8] = b"_-*\t\x00\n\xFF";

/// Every mix with one blank or with one digit, and every one of two halves.
pub fn all_mixes(random: &mut Random) -> Vec<Sent> {
    let mut mixes = Vec::new();
    for at in 0..DIGITS_OF_A_VALUE {
        mixes.push(with(digits(random), at, BLANK));
        mixes.push(with(NOT_GIVEN, at, random.digit()));
        let [mut blanks_first, mut digits_first] = [digits(random), digits(random)];
        blanks_first[..at].fill(BLANK);
        digits_first[at..].fill(BLANK);
        if at > 0 {
            mixes.extend([blanks_first, digits_first]);
        }
    }
    mixes
}

/// Twenty bytes that are neither digits nor blanks, or one of them among blanks.
pub fn other_bytes(random: &mut Random) -> Vec<Sent> {
    let bytes = WHOLLY_OF.iter();
    let sent = bytes.flat_map(|byte| {
        let at = random.below(DIGITS_OF_A_VALUE);
        let among_blanks = [0, at, DIGITS_OF_A_VALUE - 1].map(|at| with(NOT_GIVEN, at, *byte));
        among_blanks.into_iter().chain([[*byte; DIGITS_OF_A_VALUE]])
    });
    sent.collect()
}

/// Small enough to fit every field behind the first digits, and 64 bits.
fn digits(random: &mut Random) -> Sent {
    let mut sent = [b'0'; DIGITS_OF_A_VALUE];
    sent[DIGITS_OF_A_VALUE - 1] = random.digit();
    sent
}

fn with(mut sent: Sent, at: usize, byte: u8) -> Sent {
    sent[at] = byte;
    sent
}
