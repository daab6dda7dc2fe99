//! Mistakes about one record alone.

use super::absences;
use super::collection_faults::CollectionFault;
use super::collection_fields;
use super::faults::Fault;
use super::order::move_before;
use super::Sown;
use crate::paper::answers::{Answer, FieldValue, Verdict};
use crate::paper::calendar::Calendar;
use crate::paper::collection_rules::{CollectionRules, COLLECTION_RULES};
use crate::paper::layout_table::{self as table, Entry, Field, BOLETO_FORMS, CREDIT_SERVICE};
use crate::paper::lines::RECORD_BYTES;
use crate::paper::numbers::{NON_DIGIT, OUTSIDE_DOMAIN};
use crate::paper::record_kinds::{Direction, RecordKind, Subject};
use crate::paper::record_rules::{all_blank, all_digits, currency_refusal, LAST_PRINTABLE};
use crate::paper::record_rules::{Draft, RecordRules, Refusal, Row};
use crate::paper::records::{number_of, Records, Values};
use crate::paper::Paper;

const DIRECTION_PLACE: usize = 143;
/// As many as 64 bits hold of any code.
const DIGITS_OF_A_NUMBER: usize = 18;

impl RecordRules for Sown {
    fn record_rows(&self, kind: RecordKind, room: Option<usize>) -> Vec<Row> {
        let mut rows = Paper.record_rows(kind, room);
        let is_field = |row: &Row| matches!(row, Row::Field(_));
        let first = rows.iter().take_while(|row| !is_field(row)).count();
        let fields = rows.iter().filter(|row| is_field(row)).count();
        match (self.fault, room) {
            (Fault::RecordFieldsFromTheRight, _) => rows[first..first + fields].reverse(),
            (Fault::SegmentBeforeType, _) => move_before(&mut rows, Row::Segment, Row::Type),
            (Fault::RoomBeforeFields, Some(room)) => {
                let first_field = rows[first];
                move_before(&mut rows, Row::Room(room), first_field);
            }
            _ => {}
        }
        rows
    }

    fn is_printable(&self, byte: u8) -> bool {
        let allowed = self.has(Fault::Byte127Allowed) && byte == LAST_PRINTABLE + 1;
        allowed || Paper.is_printable(byte)
    }

    fn has_segment(&self, subject: Subject, byte: u8) -> bool {
        let refused = self.has(Fault::ZRefusedInARemittance)
            && subject.kind == RecordKind::Z
            && subject.direction == Direction::Remittance;
        !refused && Paper.has_segment(subject, byte)
    }

    fn number_when_too_wide(&self, field: Field) -> Option<u32> {
        match field.entry {
            Entry::Date | Entry::Time if self.has(Fault::WideDateIsNoNumber) => Some(NON_DIGIT),
            _ => Paper.number_when_too_wide(field),
        }
    }

    /// Dates and times are asked of the calendar, which may be the one with
    /// the fault.
    fn is_right(&self, field: Field, subject: Subject, content: &[u8]) -> bool {
        let returned = subject.direction == Direction::Return;
        let absence = self.absence_fault();
        if absence.is_some_and(|fault| absences::may_be_blank(fault, field, subject.kind))
            && all_blank(content)
        {
            return true;
        }
        let mistaken = self
            .collection_fault()
            .and_then(|fault| collection_fields::is_right(fault, field, subject, content));
        if let Some(right) = mistaken {
            return right;
        }
        match (self.fault, field.entry) {
            (_, Entry::Date) => self.has_date(content),
            (_, Entry::Time) => self.has_time(content),
            (Fault::NumberEndsOnePlaceShort, Entry::Number) => {
                all_digits(&content[..content.len() - 1])
            }
            (Fault::TextTestedAtFirstByteOnly, Entry::Text) => content[0] != b' ',
            (Fault::BlanksTestedAtFirstByteOnly, Entry::Blank) => content[0] == b' ',
            (Fault::J52EndFreeInReturns, Entry::Blank) => {
                let is_end = subject.kind == RecordKind::J52 && field.last == RECORD_BYTES;
                is_end && returned || all_blank(content)
            }
            (Fault::ReservedTestedInReturns, Entry::BlankInRemittance) => all_blank(content),
            (Fault::Place143AgainstDirection, Entry::OneOf(_))
                if field.first == DIRECTION_PLACE =>
            {
                content == [subject.direction.code()]
            }
            _ => Paper.is_right(field, subject, content),
        }
    }

    fn field_refusal(&self, field: Field, subject: Subject, draft: &Draft) -> Option<Refusal> {
        let right = self.refusal_of_field(field, subject, draft);
        let fault = match self.collection_fault() {
            Some(fault) if field.entry == Entry::Code => fault,
            _ => return right,
        };
        if fault == CollectionFault::TestedInARecordAlone {
            let mut rules = COLLECTION_RULES.into_iter();
            let broken =
                rules.find_map(|rule| Paper.collection_refusal(rule, subject, &draft.bytes));
            return right.or(broken);
        }
        collection_fields::non_digit(fault, field, field.of(&draft.bytes)).or(right)
    }

    fn optional_number_refusal(
        &self,
        field: Field,
        subject: Subject,
        draft: &Draft,
    ) -> Option<Refusal> {
        match self.absence_fault() {
            Some(fault) => {
                let test = absences::Test {
                    fault,
                    field,
                    subject,
                    draft,
                };
                test.refusal()
            }
            None => Paper.optional_number_refusal(field, subject, draft),
        }
    }

    fn barcode_refusal(&self, field: Field, content: &[u8]) -> Option<Refusal> {
        let right = Paper.barcode_refusal(field, content);
        match self.fault {
            Fault::BarcodeCurrencyBeforeDigits => currency_refusal(field, content).or(right),
            _ => right,
        }
    }

    fn pair_refusal(&self, service: Field, subject: Subject, draft: &Draft) -> Option<Refusal> {
        let form = table::form_of(subject.kind)?;
        let [service_wide, form_wide] = [service, form].map(|half| draft.too_wide.contains(&half));
        if let (Some(fault), false) = (self.collection_fault(), service_wide || form_wide) {
            let halves = [service, form].map(|half| half.of(&draft.bytes));
            match collection_fields::is_pair(fault, halves, subject.direction) {
                Some(true) => return None,
                Some(false) => return Some((OUTSIDE_DOMAIN, service.first)),
                None => {}
            }
        }
        let right = Paper.pair_refusal(service, subject, draft)?;
        let content = service.of(&draft.bytes);
        match self.fault {
            Fault::FormRefusedAtItsOwnPlace
                if !service_wide && is_service(content, subject.direction) =>
            {
                Some((OUTSIDE_DOMAIN, form.first))
            }
            Fault::Service03InAReturn => {
                let of_remittance = content == Direction::Remittance.boleto_service();
                let boleto = of_remittance && BOLETO_FORMS.contains(&form.of(&draft.bytes));
                let taken = boleto && !service_wide && !form_wide;
                (!taken).then_some(right)
            }
            _ => Some(right),
        }
    }
}

fn is_service(content: &[u8], direction: Direction) -> bool {
    content == CREDIT_SERVICE || content == direction.boleto_service()
}

impl Records for Sown {
    fn value_in(&self, field: Field, record: &[u8]) -> FieldValue {
        let right = Paper.value_in(field, record);
        match (self.fault, right) {
            (Fault::IdentifiersReadAsNumbers, _) if field.entry == Entry::Identifier => {
                FieldValue::Number(number_of(field.of(record)))
            }
            (Fault::Collection(CollectionFault::CodeReadAsNumber, _), _)
                if field.entry == Entry::Code =>
            {
                FieldValue::Number(number_of(&field.of(record)[..DIGITS_OF_A_NUMBER]))
            }
            (Fault::NumbersReadIn32Bits, FieldValue::Number(number)) => {
                FieldValue::Number(u64::from(number as u32))
            }
            (Fault::Absence(fault, _), _) if field.entry == Entry::OptionalNumber => {
                absences::mistaken_value(fault, record, right)
            }
            _ => right,
        }
    }

    fn draft(&self, kind: RecordKind, values: &Values) -> Draft {
        let mut draft = match self.absence_fault() {
            Some(fault) => Paper.draft(kind, &absences::mistaken_values(fault, kind, values)),
            None => Paper.draft(kind, values),
        };
        if self.has(Fault::WideNumberCut) {
            draft.too_wide.clear();
        }
        for field in table::fields(kind) {
            let absence = self.absence_fault();
            let kept = absence.is_some_and(|fault| absences::keeps_text(fault, field, &draft));
            let collection = self.collection_fault();
            let kept = kept
                || collection
                    .is_some_and(|fault| collection_fields::keeps_text(fault, kind, field));
            if kept || self.keeps_text_at(field, &values.text) {
                field.put(&mut draft.bytes, field.of(&values.text));
                draft.too_wide.retain(|wide| *wide != field);
            }
        }
        draft
    }
}

impl Sown {
    /// Text counts only at fields that are given as text.
    fn keeps_text_at(self, field: Field, text: &[u8]) -> bool {
        match self.fault {
            Fault::UnusedTextTested => {
                let mut bytes = field.of(text).iter();
                bytes.any(|byte| !self.is_printable(*byte))
            }
            Fault::FixedContentNotFilled => field.fixed_content().is_some(),
            _ => false,
        }
    }

    /// What a write leaves in the memory beside the record, or of a record that
    /// was refused.
    pub fn spoil_memory_of_record(self, subject: Subject, values: &Values, answer: &mut Answer) {
        let accepted = answer.lines[0].verdict == Verdict::Accepted;
        let memory = match &mut answer.memory {
            Some(memory) if memory.len() >= RECORD_BYTES => memory,
            _ => return,
        };
        match self.fault {
            Fault::RefusedRecordWritten => {
                let draft = Paper.draft(subject.kind, values);
                memory[..RECORD_BYTES].copy_from_slice(&draft.bytes);
            }
            Fault::ClearedBehindTheRecord if accepted => memory[RECORD_BYTES..].fill(0),
            _ => {}
        }
    }
}
