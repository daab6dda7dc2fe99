//! The rules for the code of an O record (request 5 of document 02). They are
//! only about what the code's published layout checks: neither the amount nor any
//! other field of the record is held against the code.

use super::collection_codes::CodeRules;
use super::numbers::{WRONG_CODE_CHECK, WRONG_IDENTIFIER, WRONG_PRODUCT};
use super::places::{CODE, CODE_CHECK, CODE_IDENTIFIER, CODE_PRODUCT};
use super::record_kinds::Subject;
use super::record_rules::{all_digits, Refusal};
use super::Paper;

#[derive(Clone, Copy, PartialEq, Eq)]
pub enum CollectionRule {
    Product,
    Identifier,
    GeneralCheck,
}

/// In the order in which they are tested.
pub const COLLECTION_RULES: [CollectionRule; 3] = [
    CollectionRule::Product,
    CollectionRule::Identifier,
    CollectionRule::GeneralCheck,
];

pub trait CollectionRules: CodeRules {
    /// Of an O in either direction. Where the code is not all digits a row before
    /// has refused.
    fn collection_refusal(
        &self,
        rule: CollectionRule,
        _: Subject,
        record: &[u8],
    ) -> Option<Refusal> {
        if !all_digits(CODE.of(record)) {
            return None;
        }
        let (right, number, part) = match rule {
            CollectionRule::Product => {
                let right = self.is_product(CODE_PRODUCT.of(record)[0]);
                (right, WRONG_PRODUCT, CODE_PRODUCT)
            }
            CollectionRule::Identifier => {
                let modulus = self.modulus_of(CODE_IDENTIFIER.of(record)[0]);
                (modulus.is_some(), WRONG_IDENTIFIER, CODE_IDENTIFIER)
            }
            CollectionRule::GeneralCheck => {
                let right = [self.code_check(CODE.of(record))?] == CODE_CHECK.of(record);
                (right, WRONG_CODE_CHECK, CODE_CHECK)
            }
        };
        (!right).then_some((number, part.first))
    }
}

impl CollectionRules for Paper {}
