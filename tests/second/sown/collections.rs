//! Mistakes about collection codes: their arithmetic, and what is made of them.

use super::collection_faults::CollectionFault;
use super::collection_rows::{is_left_out, moves, renamed, right_refusal};
use super::order::move_before;
use super::Sown;
use crate::asking::probe::UNTOUCHED;
use crate::paper::answers::{Answer, Verdict};
use crate::paper::collection_codes::{
    CodeConversion, CodeRules, Modulus, Row, CODE_CHECK_PLACE, CODE_DIGITS, CODE_LINE_DIGITS,
    DIGITS_OF_A_BLOCK, IDENTIFIER_PLACE, PRODUCT,
};
use crate::paper::digit_strings::DigitRules;
use crate::paper::numbers::{WRONG_CURRENCY, WRONG_PRODUCT};
use crate::paper::record_rules::all_digits;
use crate::paper::Paper;

const ELEVEN: u32 = 11;
/// What FEBRABAN's list of issuers has.
const ISSUERS: &[u8] = b"12345679";
const ISSUER_PLACE: usize = 2;
const CURRENCY: u8 = b'9';

fn value(digit: u8) -> u32 {
    u32::from(digit) - u32::from(b'0')
}

impl CodeRules for Sown {
    fn is_product(&self, digit: u8) -> bool {
        match self.collection_fault() {
            Some(CollectionFault::ProductNotTested) => true,
            Some(CollectionFault::Product9Taken) => digit == PRODUCT || digit == b'9',
            _ => Paper.is_product(digit),
        }
    }

    fn modulus_of(&self, identifier: u8) -> Option<Modulus> {
        let right = Paper.modulus_of(identifier);
        let fault = match self.collection_fault() {
            Some(fault) => fault,
            None => return right,
        };
        match (fault, identifier) {
            (CollectionFault::AlwaysByTen, _) => right.and(Some(Modulus::Ten)),
            (CollectionFault::AlwaysByEleven, _) => right.and(Some(Modulus::Eleven)),
            (CollectionFault::Identifier7ByEleven, b'7') => Some(Modulus::Eleven),
            (CollectionFault::Identifier8ByTen, b'8') => Some(Modulus::Ten),
            (CollectionFault::Identifier5Taken, b'5') => Some(Modulus::Ten),
            (CollectionFault::Identifier9Refused, b'9') => None,
            (CollectionFault::IdentifierNotTested, _) => right.or(Some(Modulus::Ten)),
            _ => right,
        }
    }

    fn check_by_ten(&self, digits: &[u8]) -> u8 {
        let weights = match self.collection_fault() {
            Some(CollectionFault::WeightsOneAndTwo) => [1, 2],
            Some(CollectionFault::ProductDigitsNotAdded) => [2, 1],
            _ => return self.field_check(digits),
        };
        let added = self.collection_fault() != Some(CollectionFault::ProductDigitsNotAdded);
        let pairs = digits.iter().rev().zip(weights.into_iter().cycle());
        let counted = pairs.map(|(digit, weight)| match value(*digit) * weight {
            product if added => product / 10 + product % 10,
            product => product,
        });
        b'0' + ((10 - counted.sum::<u32>() % 10) % 10) as u8
    }

    fn remainder_by_eleven(&self, digits: &[u8]) -> u32 {
        let weighed = |weights: &mut dyn Iterator<Item = u32>, from_the_right: bool| -> u32 {
            let mut digits = digits.to_vec();
            if from_the_right {
                digits.reverse();
            }
            let pairs = digits.into_iter().zip(weights);
            pairs.map(|(digit, weight)| value(digit) * weight).sum()
        };
        let sum = match self.collection_fault() {
            Some(CollectionFault::WeightsStopAtEight) => weighed(&mut (2..=8).cycle(), true),
            Some(CollectionFault::WeightsNeverGoRound) => weighed(&mut (2..), true),
            Some(CollectionFault::WeightsFromTheLeft) => weighed(&mut (2..=9).cycle(), false),
            _ => return Paper.remainder_by_eleven(digits),
        };
        sum % ELEVEN
    }

    fn last_step(&self, remainder: u32) -> u8 {
        match (self.collection_fault(), remainder) {
            (Some(CollectionFault::LastStepOfABoleto), 0 | 1 | 10) => b'1',
            (Some(CollectionFault::RemainderTenGivesZero), 10) => b'0',
            (Some(CollectionFault::RemainderOneGivesOne), 1) => b'1',
            // No digit at all, so that none is right.
            (Some(CollectionFault::RemainderOneGivesTen), 1) => b'0' + 10,
            _ => Paper.last_step(remainder),
        }
    }

    fn code_check(&self, code: &[u8]) -> Option<u8> {
        match self.collection_fault() {
            Some(CollectionFault::CheckOfABoleto) => {
                let modulus = self.modulus_of(code[IDENTIFIER_PLACE - 1])?;
                let remainder = Paper.remainder_by_eleven(&Paper.under_the_check(code));
                match modulus {
                    Modulus::Ten => Paper.code_check(code),
                    Modulus::Eleven => Some(Paper.check_of_remainder(remainder)),
                }
            }
            // What is tested before there is an identifier has some modulus.
            Some(CollectionFault::CheckBeforeIdentifier | CollectionFault::CheckBeforeProduct) => {
                let modulus = self.modulus_of(code[IDENTIFIER_PLACE - 1]);
                let digits = Paper.under_the_check(code);
                Some(self.check_by(modulus.unwrap_or(Modulus::Eleven), &digits))
            }
            _ => {
                let modulus = self.modulus_of(code[IDENTIFIER_PLACE - 1])?;
                Some(self.check_by(modulus, &self.under_the_check(code)))
            }
        }
    }

    fn under_the_check(&self, code: &[u8]) -> Vec<u8> {
        match self.collection_fault() {
            Some(CollectionFault::CheckOverItself) => code.to_vec(),
            Some(CollectionFault::CheckOverWhatFollows) => code[CODE_CHECK_PLACE..].to_vec(),
            _ => Paper.under_the_check(code),
        }
    }

    fn block_check(&self, identifier: u8, block: &[u8]) -> Option<u8> {
        let modulus = self.modulus_of(identifier);
        let remainder = Paper.remainder_by_eleven(block);
        match (self.collection_fault(), modulus) {
            (Some(CollectionFault::BlocksAlwaysByTen), _) => Some(Paper.check_by_ten(block)),
            (Some(CollectionFault::BlocksAlwaysByEleven), _) => Some(Paper.last_step(remainder)),
            (Some(CollectionFault::BlocksWithTheLastStepOfABoleto), Some(Modulus::Eleven)) => {
                Some(Paper.check_of_remainder(remainder))
            }
            (
                Some(
                    CollectionFault::BlocksBeforeProduct | CollectionFault::BlocksBeforeIdentifier,
                ),
                None,
            ) => Some(Paper.check_by_ten(block)),
            _ => Some(self.check_by(modulus?, block)),
        }
    }

    /// Of a string that is taken for too long, the first digits count.
    fn code_line_of(&self, code: &[u8]) -> Vec<u8> {
        let code = &code[..CODE_DIGITS];
        let mut blocks: Vec<&[u8]> = code.chunks(DIGITS_OF_A_BLOCK).collect();
        if self.collection_fault() == Some(CollectionFault::BlocksTwoAndThreeSwapped) {
            blocks.swap(1, 2);
        }
        let identifier = code[IDENTIFIER_PLACE - 1];
        let line = blocks.into_iter().flat_map(|block| {
            let check = self.block_check(identifier, block).unwrap_or(b'0');
            [block, &[check]].concat()
        });
        line.collect()
    }

    fn code_of_line(&self, line: &[u8]) -> Vec<u8> {
        let line = &line[..CODE_LINE_DIGITS];
        match self.collection_fault() {
            Some(CollectionFault::ChecksLeftIn) => line[..CODE_DIGITS].to_vec(),
            Some(CollectionFault::BlocksTwoAndThreeSwapped) => {
                let mut blocks: Vec<&[u8]> = line.chunks(DIGITS_OF_A_BLOCK + 1).collect();
                blocks.swap(1, 2);
                Paper.code_of_line(&blocks.concat())
            }
            _ => Paper.code_of_line(line),
        }
    }

    fn code_rows(&self, conversion: CodeConversion) -> Vec<Row> {
        let mut rows = Paper.code_rows(conversion);
        let fault = match self.collection_fault() {
            Some(fault) => fault,
            None => return rows,
        };
        rows.retain(|row| !is_left_out(fault, *row));
        for (moved, other) in moves(fault) {
            move_before(&mut rows, moved, other);
        }
        rows
    }

    fn code_refusal(
        &self,
        row: Row,
        conversion: CodeConversion,
        given: &[u8],
        room: usize,
    ) -> Option<(u32, usize)> {
        let fault = self.collection_fault();
        if fault == Some(CollectionFault::CheckByElevenNotTested)
            && row == Row::General
            && self.modulus_of(given[IDENTIFIER_PLACE - 1]) == Some(Modulus::Eleven)
        {
            return None;
        }
        let refusal = right_refusal(self, row, conversion, given, room);
        let asked = match (fault, row) {
            (Some(CollectionFault::IssuerTested), Row::Identifier) => {
                let known = ISSUERS.contains(&given[ISSUER_PLACE - 1]);
                (!known).then_some((WRONG_PRODUCT, ISSUER_PLACE))
            }
            (Some(CollectionFault::CurrencyAsked), Row::Product) => {
                let right = given[CODE_CHECK_PLACE - 1] == CURRENCY;
                (!right).then_some((WRONG_CURRENCY, CODE_CHECK_PLACE))
            }
            _ => None,
        };
        match fault {
            Some(fault) => asked.or(refusal).map(|refusal| renamed(fault, refusal)),
            None => refusal,
        }
    }
}

impl Sown {
    /// What a conversion leaves in the memory.
    pub fn spoil_conversion(self, conversion: CodeConversion, given: &[u8], answer: &mut Answer) {
        let accepted = answer.lines[0].verdict == Verdict::Accepted;
        let digits = conversion.result_digits();
        let memory = match &mut answer.memory {
            Some(memory) if memory.len() >= digits => memory,
            _ => return,
        };
        match self.collection_fault() {
            Some(CollectionFault::OneDigitTooFew) if accepted => {
                memory[digits - 1] = UNTOUCHED;
            }
            Some(CollectionFault::ClearedBehindTheDigits) if accepted => memory[digits..].fill(0),
            Some(CollectionFault::RefusedStringConverted)
                if given.len() == conversion.given_digits() && all_digits(given) =>
            {
                let result = match conversion {
                    CodeConversion::CodeToLine => Paper.code_line_of(given),
                    CodeConversion::LineToCode => Paper.code_of_line(given),
                };
                memory[..digits].copy_from_slice(&result);
            }
            _ => {}
        }
    }
}
