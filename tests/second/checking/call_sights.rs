//! What is to be seen in one call of a script.

use crate::cases::script_turn_cases::Standing;
use crate::checking::script_sights::{code, wrong_kind, Class, Distance, Sight, MOST_BESIDE};
use crate::making::good_calls::given_numbers;
use crate::paper::file_state::State;
use crate::paper::layout_table::{self as table, Entry, Field};
use crate::paper::lines::LINE_BYTES;
use crate::paper::record_kinds::RecordKind;
use crate::paper::record_rules::Refusal;
use crate::paper::records::{first_too_wide, number_at, Values};
use crate::paper::writer_calls::WriterCall;
use crate::paper::writer_order::Row;

/// A call that is made, and all rows that hold for it, in order.
pub struct SeenCall<'a> {
    pub call: &'a WriterCall,
    pub state: &'a State,
    pub refusals: &'a [(Row, Refusal)],
}

impl SeenCall<'_> {
    fn letter(&self) -> char {
        char::from(self.call.kind.code())
    }

    /// What is wrong with the call.
    pub fn faults(&self) -> Vec<Sight> {
        let mut sights = Vec::new();
        if let Some((row, refusal)) = self.refusals.first() {
            sights.extend(self.refusal(*row, *refusal));
            let others = self.refusals[1..].iter();
            sights.extend(others.filter_map(|(other, _)| two_faults(*row, *other)));
        }
        if !matches!(self.refusals.first(), Some((Row::Turn, _))) {
            sights.extend(self.largest_numbers());
        }
        sights
    }

    fn refusal(&self, row: Row, (number, place): Refusal) -> Vec<Sight> {
        let kinds = self.call.kinds();
        let kind_of = |at: usize| code(kinds[at]);
        match row {
            Row::Turn => {
                let (standing, call) = (Standing::of(self.state), self.letter());
                vec![Sight::OutOfTurn { standing, call }]
            }
            Row::Bytes(at) => {
                let (kind, place) = (kind_of(at), first_of_field(kinds[at], place));
                vec![Sight::WrongByte { kind, place }]
            }
            Row::Segment(at) => {
                let batch = self.state.batch().into_iter();
                let direction = self.state.direction;
                let sights = batch.map(|batch| wrong_kind(direction, batch.kind, at, kinds[at]));
                sights.collect()
            }
            Row::Field(at, field) => {
                let wide = wide_numbers(kinds[at], field, &self.call.records[at].values);
                if !wide.is_empty() {
                    return wide;
                }
                let kind = kind_of(at);
                vec![Sight::Fault {
                    number,
                    kind,
                    place,
                }]
            }
            Row::Registration(at, _) | Row::Boleto(at, _) | Row::Collection(at, _) => {
                let kind = kind_of(at);
                vec![Sight::Fault {
                    number,
                    kind,
                    place,
                }]
            }
            Row::Limit | Row::RecordLimit | Row::Total | Row::Room => Vec::new(),
        }
    }

    fn largest_numbers(&self) -> Vec<Sight> {
        let mut sights = Vec::new();
        for (record, kind) in self.call.records.iter().zip(self.call.kinds()) {
            let numbers = record.values.numbers.iter().enumerate();
            let largest = numbers.filter(|(_, number)| **number == Some(u64::MAX));
            sights.extend(largest.map(|(index, _)| Sight::LargestNumber {
                kind: code(kind),
                index,
            }));
        }
        sights
    }

    /// Only where nothing else is wrong does the room decide.
    pub fn room(&self, lent: usize, cursor: usize) -> Vec<Sight> {
        let mut sights = Vec::new();
        if self.refusals.iter().any(|(row, _)| *row != Row::Room) {
            return sights;
        }
        let (call, records) = (self.letter(), self.call.records.len());
        let bytes = lent as isize - (cursor + records * LINE_BYTES) as isize;
        if bytes.abs() <= MOST_BESIDE {
            sights.push(Sight::LentBeside {
                call,
                records,
                bytes,
            });
        }
        if lent < cursor {
            sights.push(Sight::LentLessThanWritten { call });
        }
        sights
    }

    /// What an accepted call had of note, and what the caller gave in vain. The
    /// call has written these lines.
    pub fn accepted(&self, lines: &[u8]) -> Vec<Sight> {
        let mut sights = Vec::new();
        let records = self.call.records.iter().zip(self.call.kinds());
        for ((record, kind), line) in records.zip(lines.chunks(LINE_BYTES)) {
            let fields = table::fields(kind).into_iter().enumerate();
            let kind = code(kind);
            for (index, field) in fields {
                let number = record.values.numbers[index];
                if field.is_number() && number != number_at(field, line) {
                    sights.push(if number >= Some(first_too_wide(field)) {
                        Sight::WideNumberIgnored { kind, index }
                    } else {
                        Sight::OtherNumberIgnored { kind, index }
                    });
                }
                if field.is_number() && number == Some(first_too_wide(field) - 1) {
                    sights.push(Sight::AllNines { kind, index });
                }
                let text = field.of(&record.values.text);
                if !text.iter().all(|byte| (b' '..=b'~').contains(byte)) {
                    let place = field.first;
                    sights.push(Sight::WrongByteIgnored { kind, place });
                }
            }
        }
        sights
    }
}

/// The first place of the field that has this one.
fn first_of_field(kind: RecordKind, place: usize) -> usize {
    let mut fields = table::fields(kind).into_iter();
    let field = fields.find(|field| (field.first..=field.last).contains(&place));
    field.map_or(0, |field| field.first)
}

/// The numbers too wide for the field that was refused; service and form are
/// refused together.
fn wide_numbers(kind: RecordKind, refused: Field, values: &Values) -> Vec<Sight> {
    let numbers = given_numbers(kind).into_iter();
    let wide = numbers.filter(|(index, field)| {
        let at_service = refused.entry == Entry::Service && field.entry == Entry::Form;
        let meant = *field == refused || at_service;
        meant && values.numbers[*index] >= Some(first_too_wide(*field))
    });
    let kind = code(kind);
    wide.map(|(index, _)| Sight::TooWide { kind, index })
        .collect()
}

fn two_faults(first: Row, second: Row) -> Option<Sight> {
    let distance = match (first.record(), second.record()) {
        (Some(left), Some(right)) if left == right => Distance::OneRecord,
        (Some(_), Some(_)) => Distance::TwoRecords,
        _ => Distance::Call,
    };
    Some(Sight::TwoFaults {
        first: class(first)?,
        second: class(second)?,
        distance,
    })
}

/// No script is long enough for the other two.
fn class(row: Row) -> Option<Class> {
    match row {
        Row::Turn => Some(Class::Turn),
        Row::Limit => Some(Class::Limit),
        Row::Bytes(_) => Some(Class::Byte),
        Row::Segment(_) => Some(Class::Kind),
        Row::Field(..) => Some(Class::Field),
        Row::Registration(..) => Some(Class::Registration),
        Row::Boleto(..) => Some(Class::Boleto),
        Row::Collection(..) => Some(Class::Code),
        Row::Room => Some(Class::Room),
        Row::RecordLimit | Row::Total => None,
    }
}
