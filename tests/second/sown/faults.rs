//! The list of seeded faults, and what each is about. A comparison that does not
//! notice one of them would not notice the same mistake in the payment desk
//! either.

use super::absence_faults::{AbsenceFault, ABSENCE_FAULTS};
use super::collection_faults::{CollectionFault, COLLECTION_FAULTS};
use super::limits::{LimitFault, LIMIT_FAULTS};
use super::names::hyphenated;
use super::part_faults::{PartFault, PART_FAULTS};
use super::record_rooms::{RecordRoomFault, RECORD_ROOM_FAULTS};
use super::registration_faults::{RegistrationFault, REGISTRATION_FAULTS};
use super::totals::{TotalsFault, TOTALS_FAULTS};
use super::writer_faults::{of_the_writer, WriterFault, WRITER_FAULTS};
use crate::asking::probe::{Op, Request};

#[derive(Clone, Copy, PartialEq, Eq)]
pub enum Fault {
    RemainderZeroOrOneGivesZero,
    WeightsStopAtEight,
    LineGeneralCheckAtFive,
    FieldsFromTheRight,
    CurrencyBeforeNonDigit,
    NonDigitBeforeLength,
    GeneralCheckBeforeFields,
    RoomFirst,
    FieldsTwoAndThreeSwapped,
    OneByteTooFew,
    ClearedBehindTheResult,
    ProductDigitsNotAdded,
    NonDigitCountedFromZero,
    TextTestedAtFirstByteOnly,
    SegmentBeforeType,
    BarcodeCurrencyBeforeDigits,
    Year2200Allowed,
    LeapEveryFourthYear,
    Hour24Allowed,
    BlanksTestedAtFirstByteOnly,
    ReservedTestedInReturns,
    J52EndFreeInReturns,
    Service03InAReturn,
    FormRefusedAtItsOwnPlace,
    Place143AgainstDirection,
    ZRefusedInARemittance,
    Byte127Allowed,
    NumberEndsOnePlaceShort,
    IdentifiersReadAsNumbers,
    NumbersReadIn32Bits,
    WideNumberCut,
    WideDateIsNoNumber,
    RoomBeforeFields,
    RecordFieldsFromTheRight,
    FixedContentNotFilled,
    UnusedTextTested,
    RefusedRecordWritten,
    ClearedBehindTheRecord,
    LengthBeforeEnd,
    LineEndBeforeBytes,
    BatchLimitBehindBank,
    BatchNumberBeforeBank,
    SegmentBeforeDetailNumber,
    CountsBehindFields,
    SumBeforeFields,
    TotalBeforeSum,
    EquationBeforeFields,
    DueDateBeforeCheck,
    FileWithoutBatchTaken,
    BatchWithoutPaymentTaken,
    ZTakenInARemittance,
    SecondZTaken,
    J52KnownByItsBytes,
    DirectionFixedAsRemittance,
    NonDigitBankIsEight,
    BatchesUnlimited,
    TrailerCountsPayments,
    FileEndsNotCounted,
    SumsIn32Bits,
    SumsCutTo18Digits,
    SumTestedInFirstBatchOnly,
    TotalUnlimited,
    TotalAtTheLimitTaken,
    SumOfLiveOnly,
    SumOfWithdrawnOnly,
    LiveRecordsCounted,
    BatchWithoutLivePaymentRefused,
    WithdrawnBoletosNotTested,
    OldNumbersOfAWholeFile,
    OldNumbersAtADeclaredEnd,
    ZCountedAsPayment,
    DiscountAdded,
    SmallFactorsNotCounted,
    DaysNeverFolded,
    DaysFoldedModulo10000,
    DaysFoldedInto0To8999,
    DaysFoldedOnce,
    RoundsBeginAtOne,
    FactorsComparedModulo9000,
    OldDatesWithoutFactor,
    EarlyDaysWrap,
    CentsAgainstTenDigits,
    NotLookedAtBehindTheEnd,
    LinesCutAtLineFeeds,
    EmptyCallTaken,
    RefusedLineMovesTheState,
    LinesCountedByCalls,
    RefusalKeptToTheEnd,
    /// Of the reader, and then the same of the writer.
    Totals(TotalsFault),
    Limit(LimitFault),
    Parts(PartFault),
    Writer(WriterFault),
    WriterTotals(TotalsFault),
    WriterLimit(LimitFault),
    WriterRecordRoom(RecordRoomFault),
    /// In this op alone.
    Absence(AbsenceFault, Op),
    Registration(RegistrationFault, Op),
    Collection(CollectionFault, Op),
}

const CODE_OPS: [Op; 2] = [Op::CodeToLine, Op::CodeLineToCode];

impl Fault {
    /// Whether a request can show the fault.
    pub fn is_about(self, request: &Request) -> bool {
        match self {
            Fault::Absence(_, op) | Fault::Registration(_, op) | Fault::Collection(_, op) => {
                op.code() == request.op_code()
            }
            // Mistakes about boletos have to be found in requests about boletos.
            _ => !CODE_OPS.map(Op::code).contains(&request.op_code()),
        }
    }
}

/// Mistakes about digit strings and records alone.
const NAMED_FAULTS: [(&str, Fault); 38] = [
    (
        "remainder-zero-or-one-gives-zero",
        Fault::RemainderZeroOrOneGivesZero,
    ),
    ("weights-stop-at-eight", Fault::WeightsStopAtEight),
    ("line-general-check-at-five", Fault::LineGeneralCheckAtFive),
    ("fields-from-the-right", Fault::FieldsFromTheRight),
    ("currency-before-non-digit", Fault::CurrencyBeforeNonDigit),
    ("non-digit-before-length", Fault::NonDigitBeforeLength),
    (
        "general-check-before-fields",
        Fault::GeneralCheckBeforeFields,
    ),
    ("room-first", Fault::RoomFirst),
    (
        "fields-two-and-three-swapped",
        Fault::FieldsTwoAndThreeSwapped,
    ),
    ("one-byte-too-few", Fault::OneByteTooFew),
    ("cleared-behind-the-result", Fault::ClearedBehindTheResult),
    ("product-digits-not-added", Fault::ProductDigitsNotAdded),
    (
        "non-digit-counted-from-zero",
        Fault::NonDigitCountedFromZero,
    ),
    (
        "text-tested-at-first-byte-only",
        Fault::TextTestedAtFirstByteOnly,
    ),
    ("segment-before-type", Fault::SegmentBeforeType),
    (
        "barcode-currency-before-digits",
        Fault::BarcodeCurrencyBeforeDigits,
    ),
    ("year-2200-allowed", Fault::Year2200Allowed),
    ("leap-every-fourth-year", Fault::LeapEveryFourthYear),
    ("hour-24-allowed", Fault::Hour24Allowed),
    (
        "blanks-tested-at-first-byte-only",
        Fault::BlanksTestedAtFirstByteOnly,
    ),
    ("reserved-tested-in-returns", Fault::ReservedTestedInReturns),
    ("j52-end-free-in-returns", Fault::J52EndFreeInReturns),
    ("service-03-in-a-return", Fault::Service03InAReturn),
    (
        "form-refused-at-its-own-place",
        Fault::FormRefusedAtItsOwnPlace,
    ),
    (
        "place-143-against-direction",
        Fault::Place143AgainstDirection,
    ),
    ("z-refused-in-a-remittance", Fault::ZRefusedInARemittance),
    ("byte-127-allowed", Fault::Byte127Allowed),
    (
        "number-ends-one-place-short",
        Fault::NumberEndsOnePlaceShort,
    ),
    (
        "identifiers-read-as-numbers",
        Fault::IdentifiersReadAsNumbers,
    ),
    ("numbers-read-in-32-bits", Fault::NumbersReadIn32Bits),
    ("wide-number-cut", Fault::WideNumberCut),
    ("wide-date-is-no-number", Fault::WideDateIsNoNumber),
    ("room-before-fields", Fault::RoomBeforeFields),
    (
        "record-fields-from-the-right",
        Fault::RecordFieldsFromTheRight,
    ),
    ("fixed-content-not-filled", Fault::FixedContentNotFilled),
    ("unused-text-tested", Fault::UnusedTextTested),
    ("refused-record-written", Fault::RefusedRecordWritten),
    ("cleared-behind-the-record", Fault::ClearedBehindTheRecord),
];

/// Mistakes about the lines of files.
const NAMED_FILE_FAULTS: [(&str, Fault); 52] = [
    ("length-before-end", Fault::LengthBeforeEnd),
    ("line-end-before-bytes", Fault::LineEndBeforeBytes),
    ("batch-limit-behind-bank", Fault::BatchLimitBehindBank),
    ("batch-number-before-bank", Fault::BatchNumberBeforeBank),
    (
        "segment-before-detail-number",
        Fault::SegmentBeforeDetailNumber,
    ),
    ("counts-behind-fields", Fault::CountsBehindFields),
    ("sum-before-fields", Fault::SumBeforeFields),
    ("total-before-sum", Fault::TotalBeforeSum),
    ("equation-before-fields", Fault::EquationBeforeFields),
    ("due-date-before-check", Fault::DueDateBeforeCheck),
    ("file-without-batch-taken", Fault::FileWithoutBatchTaken),
    (
        "batch-without-payment-taken",
        Fault::BatchWithoutPaymentTaken,
    ),
    ("z-taken-in-a-remittance", Fault::ZTakenInARemittance),
    ("second-z-taken", Fault::SecondZTaken),
    ("j52-known-by-its-bytes", Fault::J52KnownByItsBytes),
    (
        "direction-fixed-as-remittance",
        Fault::DirectionFixedAsRemittance,
    ),
    ("non-digit-bank-is-eight", Fault::NonDigitBankIsEight),
    ("batches-unlimited", Fault::BatchesUnlimited),
    ("trailer-counts-payments", Fault::TrailerCountsPayments),
    ("file-ends-not-counted", Fault::FileEndsNotCounted),
    ("sums-in-32-bits", Fault::SumsIn32Bits),
    ("sums-cut-to-18-digits", Fault::SumsCutTo18Digits),
    (
        "sum-tested-in-first-batch-only",
        Fault::SumTestedInFirstBatchOnly,
    ),
    ("total-unlimited", Fault::TotalUnlimited),
    ("total-at-the-limit-taken", Fault::TotalAtTheLimitTaken),
    ("sum-of-live-only", Fault::SumOfLiveOnly),
    ("sum-of-withdrawn-only", Fault::SumOfWithdrawnOnly),
    ("live-records-counted", Fault::LiveRecordsCounted),
    (
        "batch-without-live-payment-refused",
        Fault::BatchWithoutLivePaymentRefused,
    ),
    (
        "withdrawn-boletos-not-tested",
        Fault::WithdrawnBoletosNotTested,
    ),
    ("old-numbers-of-a-whole-file", Fault::OldNumbersOfAWholeFile),
    (
        "old-numbers-at-a-declared-end",
        Fault::OldNumbersAtADeclaredEnd,
    ),
    (
        "total-of-live-only",
        Fault::Limit(LimitFault::TotalOfLiveOnly),
    ),
    (
        "total-of-withdrawn-only",
        Fault::Limit(LimitFault::TotalOfWithdrawnOnly),
    ),
    ("z-counted-as-payment", Fault::ZCountedAsPayment),
    ("discount-added", Fault::DiscountAdded),
    ("small-factors-not-counted", Fault::SmallFactorsNotCounted),
    ("days-never-folded", Fault::DaysNeverFolded),
    ("days-folded-modulo-10000", Fault::DaysFoldedModulo10000),
    ("days-folded-into-0-to-8999", Fault::DaysFoldedInto0To8999),
    ("days-folded-once", Fault::DaysFoldedOnce),
    ("rounds-begin-at-one", Fault::RoundsBeginAtOne),
    (
        "factors-compared-modulo-9000",
        Fault::FactorsComparedModulo9000,
    ),
    ("old-dates-without-factor", Fault::OldDatesWithoutFactor),
    ("early-days-wrap", Fault::EarlyDaysWrap),
    ("cents-against-ten-digits", Fault::CentsAgainstTenDigits),
    (
        "not-looked-at-behind-the-end",
        Fault::NotLookedAtBehindTheEnd,
    ),
    ("lines-cut-at-line-feeds", Fault::LinesCutAtLineFeeds),
    ("empty-call-taken", Fault::EmptyCallTaken),
    (
        "refused-line-moves-the-state",
        Fault::RefusedLineMovesTheState,
    ),
    ("lines-counted-by-calls", Fault::LinesCountedByCalls),
    ("refusal-kept-to-the-end", Fault::RefusalKeptToTheEnd),
];

/// What a fault is about: requests about other things do not show it.
#[derive(Clone, Copy, PartialEq, Eq)]
pub enum Topic {
    StringsAndRecords,
    Files,
    Parts,
    Writer,
}

pub const TOPICS: [Topic; 4] = [
    Topic::StringsAndRecords,
    Topic::Files,
    Topic::Parts,
    Topic::Writer,
];

/// All faults about a topic with their names.
pub fn faults_about(topic: Topic) -> Vec<(String, Fault)> {
    let totals = TOTALS_FAULTS.iter();
    let mut faults = match topic {
        Topic::StringsAndRecords => named(&NAMED_FAULTS),
        Topic::Files => named(&NAMED_FILE_FAULTS),
        Topic::Parts => {
            let faults = PART_FAULTS.iter();
            faults.map(|f| (f.name(), Fault::Parts(*f))).collect()
        }
        Topic::Writer => {
            let faults = WRITER_FAULTS.iter();
            faults.map(|f| (f.name(), Fault::Writer(*f))).collect()
        }
    };
    match topic {
        Topic::StringsAndRecords | Topic::Parts => {}
        Topic::Files => faults.extend(totals.map(|f| (hyphenated(f), Fault::Totals(*f)))),
        Topic::Writer => {
            faults.extend(totals.map(|f| (of_the_writer(hyphenated(f)), Fault::WriterTotals(*f))));
        }
    }
    faults.extend(absence_faults_about(topic));
    faults.extend(registration_faults_about(topic));
    faults.extend(collection_faults_about(topic));
    faults
}

/// Each fault in each op of the topic that can show it.
fn absence_faults_about(topic: Topic) -> Vec<(String, Fault)> {
    let mut faults = Vec::new();
    for fault in ABSENCE_FAULTS {
        let shown_in = ops_about(topic)
            .iter()
            .filter(|op| fault.ops().contains(op));
        faults.extend(shown_in.map(|op| (fault.name(*op), Fault::Absence(*fault, *op))));
    }
    faults
}

fn registration_faults_about(topic: Topic) -> Vec<(String, Fault)> {
    let mut faults = Vec::new();
    for fault in REGISTRATION_FAULTS {
        let shown_in = ops_about(topic)
            .iter()
            .filter(|op| fault.ops().contains(op));
        faults.extend(shown_in.map(|op| (fault.name(*op), Fault::Registration(*fault, *op))));
    }
    faults
}

fn collection_faults_about(topic: Topic) -> Vec<(String, Fault)> {
    let mut faults = Vec::new();
    for fault in COLLECTION_FAULTS {
        let shown_in = ops_about(topic)
            .iter()
            .filter(|op| fault.ops().contains(op));
        faults.extend(shown_in.map(|op| (fault.name(*op), Fault::Collection(*fault, *op))));
    }
    faults
}

/// The ops that read or write records, and those about collection codes.
fn ops_about(topic: Topic) -> &'static [Op] {
    match topic {
        Topic::StringsAndRecords => &[
            Op::ReadRecord,
            Op::WriteRecord,
            Op::CodeToLine,
            Op::CodeLineToCode,
        ],
        Topic::Files => &[Op::CheckFile, Op::CheckLines],
        Topic::Parts => &[Op::CheckParts],
        Topic::Writer => &[Op::WriteFile],
    }
}

fn named(faults: &[(&str, Fault)]) -> Vec<(String, Fault)> {
    let faults = faults.iter();
    faults.map(|(name, f)| (name.to_string(), *f)).collect()
}

/// Mistakes of the reader that whole files at the limits show.
pub fn limit_faults() -> Vec<(String, Fault)> {
    let faults = LIMIT_FAULTS.iter();
    faults.map(|f| (hyphenated(f), Fault::Limit(*f))).collect()
}

/// Mistakes of the writer that no script is long enough to show.
pub fn writer_limit_faults() -> Vec<(String, Fault)> {
    let faults = LIMIT_FAULTS.iter();
    let faults = faults.map(|f| (of_the_writer(hyphenated(f)), Fault::WriterLimit(*f)));
    let rooms = RECORD_ROOM_FAULTS.iter();
    let rooms = rooms.map(|f| (of_the_writer(hyphenated(f)), Fault::WriterRecordRoom(*f)));
    faults.chain(rooms).collect()
}
