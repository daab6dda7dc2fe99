//! Seeded faults about CPF and CNPJ. Each is sown in one op alone, in every one
//! that can show it.

use super::names::{fault_list, hyphenated};
use crate::asking::probe::Op;

fault_list! {
    RegistrationFault, REGISTRATION_FAULTS,
    // What the characters may be.
    LettersRefused,
    LetterARefused,
    LetterZRefused,
    LettersRefusedBehindTheEighth,
    LettersRefusedInTheFileHeader,
    LettersRefusedInTheBatchHeader,
    LettersRefusedInB,
    LettersRefusedInJ52,
    LettersRefusedInRemittances,
    LettersRefusedInReturns,
    LowerCaseTaken,
    BytesBetweenDigitsAndLettersTaken,
    LettersTakenInTheFirstCheck,
    LettersTakenInTheSecondCheck,
    LettersTakenInFront,
    LettersTakenWithType0,
    LettersTakenWithType1,
    DigitInFrontIs8,
    WrongCharactersAre26,
    WrongCharactersNamedAtTheType,
    WrongCharactersNamedWhereTheyStand,
    // Which numbers are tested, and what is said of a wrong one.
    CpfNotTested,
    CnpjNotTested,
    LetteredCnpjNotTested,
    Type0TestedAsCpf,
    Type0TestedAsCnpj,
    NotTestedInTheFileHeader,
    NotTestedInTheBatchHeader,
    NotTestedInB,
    NotTestedInJ52,
    NotTestedInRemittances,
    NotTestedInReturns,
    OnlyTheFirstOfJ52Tested,
    LastOfJ52NotTested,
    FrontOfCpfNotTested,
    FrontOfCnpjNotTested,
    TakenFromTheLeft,
    WrongNumberIs8,
    WrongNumberIs16,
    WrongNumberNamedAtTheType,
    WrongNumberNamedAtItsCheck,
    // The arithmetic.
    FirstCheckNotTested,
    SecondCheckNotTested,
    LettersCountedFromTen,
    LettersCountedFromOne,
    RemainderOneGivesTen,
    RemainderOneGivesOne,
    RemainderTenGivesZero,
    RemaindersOfABarcode,
    CpfWeightsTurnedRound,
    SecondCpfWeightsFromTen,
    CnpjWeightsTurnedRound,
    CnpjWeightsNeverGoRound,
    SecondCnpjWeightsFromFive,
    EqualDigitsRefused,
    ZerosRefused,
    // The order.
    TestedAtItsOwnField,
    TestedBeforeAllFields,
    RightmostFirst,
    NumbersOfAllRecordsFirst,
    NumbersBehindAllRecords,
    NumbersBeforeBoletoRules,
    NumbersBehindRoom,
    // Where no number is asked to be right.
    TestedInARecordAlone,
}

const EVERY_OP: &[Op] = &[
    Op::ReadRecord,
    Op::WriteRecord,
    Op::CheckFile,
    Op::CheckLines,
    Op::WriteFile,
    Op::CheckParts,
];
const OF_FILES: &[Op] = &[Op::CheckFile, Op::CheckLines, Op::WriteFile, Op::CheckParts];
const OF_THE_WRITER: &[Op] = &[Op::WriteFile];
const OF_ONE_RECORD: &[Op] = &[Op::ReadRecord, Op::WriteRecord];

impl RegistrationFault {
    /// The ops that can show the fault: all of them test the characters, and
    /// only those of files the number.
    pub fn ops(self) -> &'static [Op] {
        match self {
            RegistrationFault::TestedInARecordAlone => OF_ONE_RECORD,
            RegistrationFault::NumbersOfAllRecordsFirst
            | RegistrationFault::NumbersBehindAllRecords
            | RegistrationFault::NumbersBeforeBoletoRules
            | RegistrationFault::NumbersBehindRoom => OF_THE_WRITER,
            RegistrationFault::LettersRefused
            | RegistrationFault::LetterARefused
            | RegistrationFault::LetterZRefused
            | RegistrationFault::LettersRefusedBehindTheEighth
            | RegistrationFault::LettersRefusedInTheFileHeader
            | RegistrationFault::LettersRefusedInTheBatchHeader
            | RegistrationFault::LettersRefusedInB
            | RegistrationFault::LettersRefusedInJ52
            | RegistrationFault::LettersRefusedInRemittances
            | RegistrationFault::LettersRefusedInReturns
            | RegistrationFault::LowerCaseTaken
            | RegistrationFault::BytesBetweenDigitsAndLettersTaken
            | RegistrationFault::LettersTakenInTheFirstCheck
            | RegistrationFault::LettersTakenInTheSecondCheck
            | RegistrationFault::LettersTakenInFront
            | RegistrationFault::LettersTakenWithType0
            | RegistrationFault::LettersTakenWithType1
            | RegistrationFault::DigitInFrontIs8
            | RegistrationFault::WrongCharactersAre26
            | RegistrationFault::WrongCharactersNamedAtTheType
            | RegistrationFault::WrongCharactersNamedWhereTheyStand => EVERY_OP,
            _ => OF_FILES,
        }
    }

    pub fn name(self, op: Op) -> String {
        let op = char::from(op.code()).to_ascii_lowercase();
        format!("op-{op}-registration-{}", hyphenated(self))
    }
}
