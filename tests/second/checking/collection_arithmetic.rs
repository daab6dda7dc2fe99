//! The checks of collection codes in other words than the papers have them: by
//! modulus 10 the digits with their check sum to a multiple of ten, every second
//! one doubled and brought below ten by nine; by modulus 11 the check lifts the sum
//! to a multiple of eleven, with 0 written for 10.

use crate::paper::collection_codes::Modulus;

const WEIGHTS: [u32; 8] = [2, 3, 4, 5, 6, 7, 8, 9];

pub fn check_by(modulus: Modulus, digits: &[u8]) -> u8 {
    match modulus {
        Modulus::Ten => check_by_ten(digits),
        Modulus::Eleven => check_by_eleven(digits),
    }
}

pub fn check_by_ten(digits: &[u8]) -> u8 {
    let mut checks = b'0'..=b'9';
    let right = checks.find(|check| {
        let whole = digits.iter().chain([check]).rev().enumerate();
        let counted = whole.map(|(at, digit)| {
            let digit = u32::from(digit - b'0');
            match (at % 2, digit) {
                (0, _) => digit,
                (_, 0..=4) => 2 * digit,
                _ => 2 * digit - 9,
            }
        });
        counted.sum::<u32>() % 10 == 0
    });
    right.unwrap_or_else(|| unreachable!("one of ten digits fills a ten"))
}

pub fn check_by_eleven(digits: &[u8]) -> u8 {
    let weighed = digits.iter().rev().enumerate();
    let sum: u32 = weighed
        .map(|(at, digit)| u32::from(digit - b'0') * WEIGHTS[at % WEIGHTS.len()])
        .sum();
    let lift = (0..11).find(|lift| (sum + lift) % 11 == 0);
    b'0' + lift.unwrap_or(0) as u8 % 10
}
