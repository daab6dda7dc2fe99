//! Seeded faults of the checker that takes a file in parts.

use super::names::{fault_list, hyphenated};

fault_list! {
    PartFault, PART_FAULTS,
    // When a line is judged, and its refusal said.
    WrongByteSeenAtOnce,
    TypeSeenAtOnce,
    RecordJudgedBeforeItsLineEnd,
    LineJudgedBeforeItsLineFeed,
    LineFeedEndsALine,
    LineEndCutInTwoRefused,
    LineJudgedAByteLate,
    LineAtTheEndOfAPartPutOff,
    OneLineOfAPartJudged,
    AllPutOffToTheEnd,
    RefusalsSaidAtTheEnd,
    PartsTakenForLines,
    // The bytes that are kept of an unfinished line.
    HeldBytesLostAtAnEmptyPart,
    HeldBytesReplaced,
    HeldBytesEndAt240,
    PartInsideALineLost,
    TailOfAPartLost,
    LinesBehindTheFirstLost,
    PartAsLongAsALineTakenForOne,
    LengthsIn8Bits,
    LengthsIn16Bits,
    EmptyPartTakenForTheEnd,
    // What stands behind the type 9 line.
    EmptyPartBehindType9Refused,
    BytesBehindSeenAtTheEnd,
    BytesBehindSeenAsALine,
    BytesBehindInThatPartUnseen,
    BytesBehindInLaterPartsUnseen,
    BlanksTakenBehindType9,
    LineEndsTakenBehindType9,
    BytesBehindOnTheLastLine,
    BytesBehindOutOfTurn,
    // What is said behind a refusal.
    RefusalForgotten,
    RefusalForgottenAtAnEmptyPart,
    RefusalForgottenAtTheEnd,
    LaterRefusalSaidInstead,
    EmptyPartTakenBehindARefusal,
    PartsTakenBehindARefusal,
    BytesBehindForgotten,
    EarlyEndForgotten,
    UnfinishedEndForgotten,
    RefusedEndRepairedByBytes,
    OutOfTurnBehindARefusal,
    OutOfTurnBehindARefusedEnd,
    // What is said behind an accepted end.
    TotalsSaidAgain,
    EmptyPartTakenBehindTheEnd,
    PartsTakenBehindTheEnd,
    PartBehindTheEndIsThree,
    OutOfTurnOnTheNextLine,
    BegunAnewBehindTheEnd,
    // What is counted, and what is known between two parts.
    LinesOfTheRefusedPartLost,
    RefusedLineCounted,
    LinesBehindTheRefusalCounted,
    UnfinishedLineCounted,
    LinesForgottenAtTheEnd,
    LinesForgottenAtARefusedEnd,
    LinesNamedFromThePart,
    LinesNamedByCalls,
    PlacesNamedFromThePart,
    UnfinishedEndIsTwo,
    OldNumbersAtTheEnd,
    DirectionForgottenBetweenParts,
    SumForgottenBetweenParts,
    TotalsForgottenBetweenParts,
}

impl PartFault {
    pub fn name(self) -> String {
        format!("parts-{}", hyphenated(self))
    }
}
