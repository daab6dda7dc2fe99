//! Mistakes about the two numbers of an A that may be not given.

use super::absence_faults::AbsenceFault;
use crate::making::absences;
use crate::paper::answers::FieldValue;
use crate::paper::calendar::Calendar;
use crate::paper::layout_table::{Entry, Field};
use crate::paper::numbers::{BLANK_BEFORE_TEXT, NON_DIGIT, NO_DATE_OR_TIME};
use crate::paper::numbers::{OUTSIDE_DOMAIN, WRONG_FIXED_CONTENT};
use crate::paper::places::{AMOUNT_OF_A, NOT_THERE_YET};
use crate::paper::record_kinds::{Direction, RecordKind, Subject};
use crate::paper::record_rules::{all_blank, all_digits, Draft, RecordRules, Refusal};
use crate::paper::records::{first_too_wide, number_at, Values};
use crate::paper::Paper;

/// One of the two numbers as it is tested.
pub struct Test<'a> {
    pub fault: AbsenceFault,
    pub field: Field,
    pub subject: Subject,
    pub draft: &'a Draft,
}

impl Test<'_> {
    pub fn refusal(&self) -> Option<Refusal> {
        if self.fault == AbsenceFault::SecondTestedFirst {
            let [_, (_, second)] = absences::fields();
            return self.right(second).or(self.right(self.field));
        }
        match self.right(self.field) {
            None => self.refused_by_mistake(),
            Some(_) if self.is_taken() => None,
            Some(refusal) => Some(self.named(refusal)),
        }
    }

    fn right(&self, field: Field) -> Option<Refusal> {
        Paper.optional_number_refusal(field, self.subject, self.draft)
    }

    fn content(&self) -> &[u8] {
        self.field.of(&self.draft.bytes)
    }

    /// Of what the paper takes.
    fn refused_by_mistake(&self) -> Option<Refusal> {
        let content = self.content();
        let blank = all_blank(content);
        let zeros = content.iter().all(|byte| *byte == b'0');
        let is_first = self.field.first == NOT_THERE_YET[0].first;
        let no_date = is_first && !blank && !Paper.has_date(content);
        let direction = self.subject.direction;
        let (refused, number) = match self.fault {
            AbsenceFault::BlanksRefused => (blank, NON_DIGIT),
            AbsenceFault::BothOrNone => (self.is_blank_alone(), NON_DIGIT),
            AbsenceFault::OnlyTheFirst => (blank && !is_first, NON_DIGIT),
            AbsenceFault::OnlyTheSecond => (blank && is_first, NON_DIGIT),
            AbsenceFault::OnlyInReturns => (blank && direction != Direction::Return, NON_DIGIT),
            AbsenceFault::OnlyInRemittances => (blank && direction == Direction::Return, NON_DIGIT),
            AbsenceFault::ZerosRefused => (zeros, NON_DIGIT),
            AbsenceFault::FirstTakenForADate => (no_date, NO_DATE_OR_TIME),
            AbsenceFault::FirstTakenForADateOrZeros => (no_date && !zeros, NO_DATE_OR_TIME),
            _ => return None,
        };
        refused.then_some((number, self.field.first))
    }

    /// And the other of the two is not.
    fn is_blank_alone(&self) -> bool {
        let blank = absences::fields().map(|(_, field)| all_blank(field.of(&self.draft.bytes)));
        all_blank(self.content()) && blank != [true, true]
    }

    /// Of what the paper refuses.
    fn is_taken(&self) -> bool {
        let content = self.content();
        let (first, last) = (content[0], content[content.len() - 1]);
        let is_either = |byte: u8| byte == b' ' || byte.is_ascii_digit();
        match self.fault {
            AbsenceFault::BlanksBeforeDigitsTaken => {
                let blanks = content.iter().take_while(|byte| **byte == b' ').count();
                all_digits(&content[blanks..])
            }
            AbsenceFault::DigitsBeforeBlanksTaken => {
                let digits = content.iter().take_while(|byte| byte.is_ascii_digit());
                all_blank(&content[digits.count()..])
            }
            AbsenceFault::BlanksAmongDigitsTaken => content.iter().all(|byte| is_either(*byte)),
            AbsenceFault::FirstByteDecides => is_either(first),
            AbsenceFault::LastByteDecides => is_either(last),
            AbsenceFault::BlankFirstByteDecides => first == b' ',
            AbsenceFault::LastByteNotTested => {
                let tested = &content[..content.len() - 1];
                all_digits(tested) || all_blank(tested)
            }
            _ => false,
        }
    }

    /// What a refusal that is right names by mistake.
    fn named(&self, (number, place): Refusal) -> Refusal {
        let content = self.content();
        let first = content[0];
        let at = |is_meant: &dyn Fn(u8) -> bool| {
            let before = content.iter().position(|byte| is_meant(*byte));
            (number, place + before.unwrap_or(0))
        };
        match self.fault {
            AbsenceFault::RefusedWith12 => (WRONG_FIXED_CONTENT, place),
            AbsenceFault::RefusedWith13 => (BLANK_BEFORE_TEXT, place),
            AbsenceFault::RefusedWith14 => (OUTSIDE_DOMAIN, place),
            AbsenceFault::RefusedWith15 => (NO_DATE_OR_TIME, place),
            AbsenceFault::NamedAtTheOtherField => {
                let [left, right] = NOT_THERE_YET.map(|part| part.first);
                (number, left + right - place)
            }
            AbsenceFault::NamedAtTheFirstNonDigit => at(&|byte| !byte.is_ascii_digit()),
            AbsenceFault::NamedAtTheFirstOtherByte => {
                at(&|byte| byte.is_ascii_digit() != first.is_ascii_digit())
            }
            _ => (number, place),
        }
    }
}

/// Whether a field that is always given may be blank by mistake.
pub fn may_be_blank(fault: AbsenceFault, field: Field, kind: RecordKind) -> bool {
    let is_number = field.entry == Entry::Number;
    let is_a = kind == RecordKind::A;
    match fault {
        AbsenceFault::EveryNumberOfAMayBeBlank => is_number && is_a,
        AbsenceFault::EveryNumberMayBeBlank => is_number,
        AbsenceFault::AmountMayBeBlank => is_a && field.first == AMOUNT_OF_A.first,
        AbsenceFault::DatesMayBeBlank => field.entry == Entry::Date,
        _ => false,
    }
}

/// What is said of one of the two numbers.
pub fn mistaken_value(fault: AbsenceFault, record: &[u8], right: FieldValue) -> FieldValue {
    match (fault, right) {
        (AbsenceFault::BlanksReadAsZero, FieldValue::NotGiven) => FieldValue::Number(0),
        (AbsenceFault::BlanksReadAsTheLargestNumber, FieldValue::NotGiven) => {
            FieldValue::Number(u64::MAX)
        }
        (AbsenceFault::BlanksReadAsBytes, FieldValue::NotGiven) => FieldValue::Bytes,
        (AbsenceFault::ZeroReadAsNotGiven, FieldValue::Number(0)) => FieldValue::NotGiven,
        (AbsenceFault::OneNotGivenMakesTwo, _) => {
            let given = absences::fields().map(|(_, field)| number_at(field, record));
            if given.contains(&None) {
                FieldValue::NotGiven
            } else {
                right
            }
        }
        _ => right,
    }
}

/// The values that a writer goes by.
pub fn mistaken_values(fault: AbsenceFault, kind: RecordKind, given: &Values) -> Values {
    let mut values = given.clone();
    if kind != RecordKind::A {
        return values;
    }
    let given = absences::fields().map(|(index, _)| given.numbers[index]);
    for (index, field) in absences::fields() {
        let number = &mut values.numbers[index];
        *number = match (fault, *number) {
            (AbsenceFault::ZerosWrittenForNotGiven, None) => Some(0),
            (AbsenceFault::OneNotGivenMakesTwo, _) if given.contains(&None) => None,
            (_, Some(number)) if is_left_blank(fault, field, number) => None,
            (_, right) => right,
        };
    }
    values
}

fn is_left_blank(fault: AbsenceFault, field: Field, number: u64) -> bool {
    let too_wide = first_too_wide(field);
    match fault {
        AbsenceFault::ZeroWrittenAsBlanks => number == 0,
        AbsenceFault::NinesWrittenAsBlanks => number == too_wide - 1,
        AbsenceFault::FirstTooWideWrittenAsBlanks => number == too_wide,
        AbsenceFault::LargestWrittenAsBlanks => number == u64::MAX,
        AbsenceFault::WideWrittenAsBlanks => number >= too_wide,
        _ => false,
    }
}

/// Whether the caller's text is written where it does not count.
pub fn keeps_text(fault: AbsenceFault, field: Field, draft: &Draft) -> bool {
    let not_given = field.entry == Entry::OptionalNumber && all_blank(field.of(&draft.bytes));
    fault == AbsenceFault::TextWrittenForNotGiven && not_given
}
