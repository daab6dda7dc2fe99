//! Seeded faults about numbers that are not given. Each is sown in one op alone,
//! in every one that can show it: a desk may keep a rule where it reads a file,
//! and break it where it writes a record.

use super::names::{fault_list, hyphenated};
use crate::asking::probe::Op;

fault_list! {
    AbsenceFault, ABSENCE_FAULTS,
    // Where a number may be not given, and what one that is given may be.
    BlanksRefused,
    BothOrNone,
    OnlyTheFirst,
    OnlyTheSecond,
    OnlyInReturns,
    OnlyInRemittances,
    ZerosRefused,
    FirstTakenForADate,
    FirstTakenForADateOrZeros,
    // What is neither a number nor blank, and taken all the same.
    BlanksBeforeDigitsTaken,
    DigitsBeforeBlanksTaken,
    BlanksAmongDigitsTaken,
    FirstByteDecides,
    LastByteDecides,
    BlankFirstByteDecides,
    LastByteNotTested,
    // Other fields that may be left blank.
    EveryNumberOfAMayBeBlank,
    EveryNumberMayBeBlank,
    AmountMayBeBlank,
    DatesMayBeBlank,
    // What a refusal names.
    RefusedWith12,
    RefusedWith13,
    RefusedWith14,
    RefusedWith15,
    NamedAtTheOtherField,
    NamedAtTheFirstNonDigit,
    NamedAtTheFirstOtherByte,
    SecondTestedFirst,
    // What is read.
    BlanksReadAsZero,
    BlanksReadAsTheLargestNumber,
    BlanksReadAsBytes,
    ZeroReadAsNotGiven,
    // What is read and written of the two together.
    OneNotGivenMakesTwo,
    // What is written.
    ZerosWrittenForNotGiven,
    TextWrittenForNotGiven,
    ZeroWrittenAsBlanks,
    NinesWrittenAsBlanks,
    FirstTooWideWrittenAsBlanks,
    LargestWrittenAsBlanks,
    WideWrittenAsBlanks,
}

const EVERY_OP: &[Op] = &[
    Op::ReadRecord,
    Op::WriteRecord,
    Op::CheckFile,
    Op::CheckLines,
    Op::WriteFile,
    Op::CheckParts,
];
const READING: &[Op] = &[
    Op::ReadRecord,
    Op::CheckFile,
    Op::CheckLines,
    Op::CheckParts,
];
const WRITING: &[Op] = &[Op::WriteRecord, Op::WriteFile];
const OF_ONE_RECORD: &[Op] = &[Op::ReadRecord];
const OF_GIVEN_NUMBERS: &[Op] = &[Op::ReadRecord, Op::WriteRecord, Op::WriteFile];

impl AbsenceFault {
    /// The ops that can show the fault. Blanks for another number cannot be sent
    /// to a writer, nor a mix; and only what is read alone is said.
    pub fn ops(self) -> &'static [Op] {
        match self {
            AbsenceFault::BlanksRefused
            | AbsenceFault::BothOrNone
            | AbsenceFault::OnlyTheFirst
            | AbsenceFault::OnlyTheSecond
            | AbsenceFault::OnlyInReturns
            | AbsenceFault::OnlyInRemittances
            | AbsenceFault::ZerosRefused
            | AbsenceFault::FirstTakenForADate
            | AbsenceFault::FirstTakenForADateOrZeros
            | AbsenceFault::RefusedWith12
            | AbsenceFault::RefusedWith13
            | AbsenceFault::RefusedWith14
            | AbsenceFault::RefusedWith15
            | AbsenceFault::NamedAtTheOtherField
            | AbsenceFault::SecondTestedFirst => EVERY_OP,
            AbsenceFault::BlanksReadAsZero
            | AbsenceFault::BlanksReadAsTheLargestNumber
            | AbsenceFault::BlanksReadAsBytes
            | AbsenceFault::ZeroReadAsNotGiven => OF_ONE_RECORD,
            AbsenceFault::OneNotGivenMakesTwo => OF_GIVEN_NUMBERS,
            AbsenceFault::ZerosWrittenForNotGiven
            | AbsenceFault::TextWrittenForNotGiven
            | AbsenceFault::ZeroWrittenAsBlanks
            | AbsenceFault::NinesWrittenAsBlanks
            | AbsenceFault::FirstTooWideWrittenAsBlanks
            | AbsenceFault::LargestWrittenAsBlanks
            | AbsenceFault::WideWrittenAsBlanks => WRITING,
            _ => READING,
        }
    }

    pub fn name(self, op: Op) -> String {
        let op = char::from(op.code()).to_ascii_lowercase();
        format!("op-{op}-{}", hyphenated(self))
    }
}
