//! 'Numbers we act on': the rows of document 01's table, in its order, each
//! named once. Where a row stands in the order of tests is said by the files
//! about digit strings, records, lines and writer calls.

/// A line shorter than 242 bytes, or in a single-line call other; a record
/// alone of other than 240.
pub const WRONG_LENGTH: u32 = 1;
/// The input ends before a type 9 line.
pub const NO_END: u32 = 2;
pub const BEHIND_THE_END: u32 = 3;
pub const WRONG_BYTE: u32 = 4;
pub const WRONG_LINE_END: u32 = 5;
pub const WRONG_TYPE: u32 = 6;
pub const OTHER_BANK: u32 = 7;
pub const NON_DIGIT: u32 = 8;
pub const WRONG_BATCH_NUMBER: u32 = 9;
pub const WRONG_DETAIL_NUMBER: u32 = 10;
pub const WRONG_SEGMENT: u32 = 11;
pub const WRONG_FIXED_CONTENT: u32 = 12;
pub const BLANK_BEFORE_TEXT: u32 = 13;
pub const OUTSIDE_DOMAIN: u32 = 14;
pub const NO_DATE_OR_TIME: u32 = 15;
pub const WRONG_CHECK: u32 = 16;
pub const WRONG_DUE_DATE: u32 = 17;
pub const WRONG_CENTS: u32 = 18;
pub const WRONG_AMOUNT: u32 = 19;
pub const OVER_A_LIMIT: u32 = 20;
pub const WRONG_COUNT: u32 = 21;
pub const WRONG_SUM: u32 = 22;
pub const TOTAL_TOO_LARGE: u32 = 23;
/// In the writer alone.
pub const TOO_MANY_RECORDS: u32 = 25;
/// A CPF or CNPJ, by request 7 of document 02.
pub const WRONG_REGISTRATION: u32 = 26;

/// Of digit strings alone.
pub const WRONG_DIGIT_COUNT: u32 = 40;
pub const NON_DIGIT_IN_A_STRING: u32 = 41;
pub const WRONG_FIELD_CHECK: u32 = 42;
pub const WRONG_CURRENCY: u32 = 43;
pub const WRONG_GENERAL_CHECK: u32 = 44;

pub const OUTPUT_TOO_SHORT: u32 = 50;
/// Of the writer's calls, and of those behind the end of a file in parts.
pub const OUT_OF_TURN: u32 = 51;

/// Of the codes of request 5 of document 02, in O records and in digit strings;
/// the check of a block in digit strings alone.
pub const WRONG_PRODUCT: u32 = 52;
pub const WRONG_IDENTIFIER: u32 = 53;
pub const WRONG_BLOCK_CHECK: u32 = 54;
pub const WRONG_CODE_CHECK: u32 = 55;
