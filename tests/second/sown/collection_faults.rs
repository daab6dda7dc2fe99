//! Seeded faults about O records and collection codes. Each is sown in one op
//! alone, in every one that can show it.

use super::names::{fault_list, hyphenated};
use crate::asking::probe::Op;

fault_list! {
    CollectionFault, COLLECTION_FAULTS,
    // Which codes are taken.
    ProductNotTested,
    Product9Taken,
    IdentifierNotTested,
    Identifier5Taken,
    Identifier9Refused,
    IssuerTested,
    CurrencyAsked,
    CheckNotTested,
    CheckByElevenNotTested,
    // The arithmetic of the general check, and of blocks.
    LastStepOfABoleto,
    RemainderTenGivesZero,
    RemainderOneGivesOne,
    RemainderOneGivesTen,
    WeightsStopAtEight,
    WeightsNeverGoRound,
    WeightsFromTheLeft,
    ProductDigitsNotAdded,
    WeightsOneAndTwo,
    AlwaysByTen,
    AlwaysByEleven,
    Identifier7ByEleven,
    Identifier8ByTen,
    CheckOverItself,
    CheckOverWhatFollows,
    CheckOfABoleto,
    // Blocks alone.
    BlocksAlwaysByTen,
    BlocksAlwaysByEleven,
    BlocksWithTheLastStepOfABoleto,
    OnlyTheFirstBlockTested,
    LastBlockNotTested,
    BlocksNotTested,
    BlocksFromTheRight,
    BlockNamedAtItsStart,
    BlockNamedInTheCode,
    BlockNamedByItsNumber,
    WrongBlockIs42,
    // What is converted.
    BlocksTwoAndThreeSwapped,
    ChecksLeftIn,
    OneDigitTooFew,
    ClearedBehindTheDigits,
    RefusedStringConverted,
    LengthNotTested,
    // What a refusal names.
    WrongProductIs43,
    WrongIdentifierIs52,
    WrongCheckIs44,
    WrongCheckIs16,
    CheckNamedAtTheBoletosPlace,
    IdentifierNamedAtTheProduct,
    NamedByThePlaceInTheCode,
    NamedAtTheField,
    // The order.
    IdentifierBeforeProduct,
    CheckBeforeIdentifier,
    CheckBeforeProduct,
    CheckBeforeBlocks,
    BlocksBeforeProduct,
    BlocksBeforeIdentifier,
    NonDigitBeforeDigitCount,
    RoomBeforeTheString,
    RoomBeforeTheCheck,
    TestedAtItsOwnField,
    TestedBeforeAllFields,
    TestedBehindAllRecords,
    TestedBehindRoom,
    // Where the rules hold, and what else is asked.
    NotTestedInRemittances,
    NotTestedInReturns,
    WithdrawnNotTested,
    ValueAgainstTheAmount,
    TestedInARecordAlone,
    // The fields of an O.
    CodeReadAsNumber,
    NonDigitNamedWhereItStands,
    MovementNotTested,
    NameMayBeginWithABlank,
    DueDateNotTested,
    PaymentDateNotTested,
    OurNumberMayBeginWithABlank,
    BanksNumberIsAText,
    MiddleFree,
    MiddleOfTheCaller,
    ReservedFreeInRemittances,
    ReservedBlankInReturns,
    // Service and form.
    PairOnlyInRemittances,
    PairOnlyInReturns,
    Form10Taken,
    Form30Taken,
    Service20Taken,
    Service22Taken,
    Service03Taken,
    // Which records may stand where.
    TakenInCreditBatches,
    TakenInBoletoBatches,
    CreditsTakenInItsBatches,
    BoletosTakenInItsBatches,
    ZTakenInRemittances,
    SecondZTaken,
    ZRefused,
    ZTakenFirst,
    SecondRecordDue,
    // What is counted and summed.
    AmountNotSummed,
    CountedAsTwoRecords,
    WrittenAsTwoLines,
}

const STRINGS: &[Op] = &[Op::CodeToLine, Op::CodeLineToCode];
const LINES: &[Op] = &[Op::CodeLineToCode];
const OF_FILES: &[Op] = &[Op::CheckFile, Op::CheckLines, Op::WriteFile, Op::CheckParts];
const STRINGS_AND_FILES: &[Op] = &[
    Op::CodeToLine,
    Op::CodeLineToCode,
    Op::CheckFile,
    Op::CheckLines,
    Op::WriteFile,
    Op::CheckParts,
];
const RECORDS: &[Op] = &[
    Op::ReadRecord,
    Op::WriteRecord,
    Op::CheckFile,
    Op::CheckLines,
    Op::WriteFile,
    Op::CheckParts,
];
const READING: &[Op] = &[
    Op::ReadRecord,
    Op::CheckFile,
    Op::CheckLines,
    Op::CheckParts,
];
const WRITING: &[Op] = &[Op::WriteRecord, Op::WriteFile];
const OF_THE_WRITER: &[Op] = &[Op::WriteFile];
const OF_ONE_RECORD: &[Op] = &[Op::ReadRecord, Op::WriteRecord];
const OF_WHAT_IS_READ: &[Op] = &[Op::ReadRecord];

impl CollectionFault {
    /// The ops that can show the fault.
    pub fn ops(self) -> &'static [Op] {
        use CollectionFault::*;
        match self {
            BlocksAlwaysByTen | BlocksAlwaysByEleven | BlocksWithTheLastStepOfABoleto => STRINGS,
            BlocksTwoAndThreeSwapped | OneDigitTooFew | ClearedBehindTheDigits => STRINGS,
            RefusedStringConverted | LengthNotTested | WrongProductIs43 => STRINGS,
            WrongCheckIs44 | NonDigitBeforeDigitCount | RoomBeforeTheString => STRINGS,
            RoomBeforeTheCheck => STRINGS,
            OnlyTheFirstBlockTested | LastBlockNotTested | BlocksNotTested => LINES,
            BlocksFromTheRight | BlockNamedAtItsStart | BlockNamedInTheCode => LINES,
            BlockNamedByItsNumber | WrongBlockIs42 | ChecksLeftIn => LINES,
            CheckBeforeBlocks | BlocksBeforeProduct | BlocksBeforeIdentifier => LINES,
            WrongCheckIs16 | NamedByThePlaceInTheCode | NamedAtTheField => OF_FILES,
            TestedAtItsOwnField | TestedBeforeAllFields | NotTestedInRemittances => OF_FILES,
            NotTestedInReturns | WithdrawnNotTested | ValueAgainstTheAmount => OF_FILES,
            TestedBehindAllRecords | TestedBehindRoom | WrittenAsTwoLines => OF_THE_WRITER,
            TestedInARecordAlone => OF_ONE_RECORD,
            CodeReadAsNumber => OF_WHAT_IS_READ,
            MiddleFree => READING,
            MiddleOfTheCaller => WRITING,
            NonDigitNamedWhereItStands | MovementNotTested | NameMayBeginWithABlank => RECORDS,
            DueDateNotTested | PaymentDateNotTested | OurNumberMayBeginWithABlank => RECORDS,
            BanksNumberIsAText | ReservedFreeInRemittances | ReservedBlankInReturns => RECORDS,
            PairOnlyInRemittances | PairOnlyInReturns | Form10Taken | Form30Taken => RECORDS,
            Service20Taken | Service22Taken | Service03Taken => RECORDS,
            TakenInCreditBatches | TakenInBoletoBatches | CreditsTakenInItsBatches => OF_FILES,
            BoletosTakenInItsBatches | ZTakenInRemittances | SecondZTaken => OF_FILES,
            ZRefused | ZTakenFirst | SecondRecordDue => OF_FILES,
            AmountNotSummed | CountedAsTwoRecords => OF_FILES,
            _ => STRINGS_AND_FILES,
        }
    }

    pub fn name(self, op: Op) -> String {
        let code = char::from(op.code());
        // The two calls for codes have the letters of those for boletos.
        let family = if code.is_ascii_lowercase() {
            "code-"
        } else {
            ""
        };
        let op = code.to_ascii_lowercase();
        format!("op-{family}{op}-collection-{}", hyphenated(self))
    }
}
