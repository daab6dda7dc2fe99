//! Scripts with two faults in one call, which show what is tested first.

use crate::asking::writer_script::Step;
use crate::cases::script_cases::ScriptCases;
use crate::cases::script_kind_cases::is_no_payment;
use crate::cases::script_room_cases::MORE_THAN_ALL;
use crate::damage::call_flaws;
use crate::damage::collection_flaws;
use crate::damage::registration_flaws;
use crate::making::good_calls::{steps, Frame};
use crate::making::random::Random;
use crate::paper::file_state::{BatchKind, BATCH_KINDS};
use crate::paper::layout_table as table;
use crate::paper::lines::LINE_BYTES;
use crate::paper::record_kinds::{
    all_subjects, Direction, RecordKind, Subject, DIRECTIONS, RECORD_KINDS,
};
use crate::paper::writer_calls::{CallKind, WriterCall};

const REPEATS_IN_ONE_RECORD: usize = 2;
const COMBINATIONS_OF_BOLETO_FLAWS: usize = 16;
const WRONG_NUMBER_ONCE_IN: usize = 3;

/// What can be wrong with a record.
#[derive(Clone, Copy, PartialEq, Eq)]
enum Blemish {
    /// Only a J has it.
    Boleto,
    /// Only an O has it.
    Code,
    /// A wrong CPF or CNPJ.
    Registration,
    /// Only a payment has it.
    Kind,
    Field,
    Byte,
}

/// In an order in which they can be put so that none undoes another, as far as
/// a record can have both.
const PAIRS: [(Blemish, Blemish); 13] = [
    (Blemish::Boleto, Blemish::Field),
    (Blemish::Boleto, Blemish::Byte),
    (Blemish::Code, Blemish::Field),
    (Blemish::Code, Blemish::Byte),
    (Blemish::Kind, Blemish::Code),
    (Blemish::Registration, Blemish::Registration),
    (Blemish::Registration, Blemish::Field),
    (Blemish::Registration, Blemish::Byte),
    (Blemish::Kind, Blemish::Registration),
    (Blemish::Kind, Blemish::Field),
    (Blemish::Kind, Blemish::Byte),
    (Blemish::Field, Blemish::Field),
    (Blemish::Field, Blemish::Byte),
];
const BLEMISHES: [Blemish; 6] = [
    Blemish::Boleto,
    Blemish::Code,
    Blemish::Registration,
    Blemish::Kind,
    Blemish::Field,
    Blemish::Byte,
];
/// Two of the three records of a payment.
const TWO_RECORDS: [(usize, usize); 3] = [(0, 1), (0, 2), (1, 2)];

impl ScriptCases<'_> {
    pub fn ask_pairs(&mut self) {
        for subject in all_subjects() {
            for pair in PAIRS {
                for _ in 0..REPEATS_IN_ONE_RECORD {
                    self.two_in_one_record(subject, pair);
                }
            }
            for blemish in BLEMISHES {
                self.without_room(subject, blemish);
            }
        }
        for direction in DIRECTIONS {
            for records in TWO_RECORDS {
                for first in BLEMISHES {
                    for second in BLEMISHES {
                        self.in_two_records(direction, records, (first, second));
                    }
                }
            }
        }
    }

    fn two_in_one_record(&mut self, subject: Subject, (first, second): (Blemish, Blemish)) {
        if let Some(good) = Frame::around(self.random, subject) {
            let mut spoiled = good.clone();
            self.put(&mut spoiled, first);
            self.put(&mut spoiled, second);
            self.ask_spoiled(&good, &spoiled);
        }
    }

    /// The call finds too little room as well.
    fn without_room(&mut self, subject: Subject, blemish: Blemish) {
        let good = match Frame::around(self.random, subject) {
            Some(good) => good,
            None => return,
        };
        let mut spoiled = good.clone();
        self.put(&mut spoiled, blemish);
        let asked = spoiled.call().records.len() * LINE_BYTES;
        let lent = good.records_before() * LINE_BYTES + self.random.below(asked);
        let at = good.spot.call;
        let mut script = steps(&good.calls[..at]);
        script.push(Step::Lend(lent));
        script.push(Step::Call(spoiled.call().clone()));
        script.push(Step::Lend(MORE_THAN_ALL));
        if self.random.coin() {
            script.extend(steps(&good.calls[at..]));
        }
        self.ask_with_room(&script);
    }

    fn in_two_records(
        &mut self,
        direction: Direction,
        (left, right): (usize, usize),
        (first, second): (Blemish, Blemish),
    ) {
        let batch = match first {
            Blemish::Boleto => BatchKind::Boleto,
            Blemish::Code => BatchKind::Collection,
            _ => self.random.pick(&BATCH_KINDS),
        };
        let good = self.payment_frame(direction, batch);
        let mut spoiled = good.clone();
        while spoiled.call().records.len() <= right {
            let z = self.detail_or_other(direction, RecordKind::Z);
            spoiled.call_mut().records.push(z);
        }
        for (record, blemish) in [(left, first), (right, second)] {
            spoiled.spot.record = record;
            self.put(&mut spoiled, blemish);
        }
        self.ask_spoiled(&good, &spoiled);
    }

    /// Puts a blemish into the frame's record, if that can have it.
    fn put(&mut self, frame: &mut Frame, blemish: Blemish) {
        let subject = frame.subject();
        match blemish {
            Blemish::Boleto if subject.kind == RecordKind::J && frame.spot.record == 0 => {
                let flaws = self.random.between(1, COMBINATIONS_OF_BOLETO_FLAWS - 1);
                call_flaws::spoil_boleto(self.random, frame, flaws);
            }
            Blemish::Kind if frame.call().kind == CallKind::Payment => {
                let kind = self.random.pick(&RECORD_KINDS);
                *frame.record_mut() = self.detail_or_other(subject.direction, kind);
                if is_no_payment(&frame.call().records) {
                    let z = self.detail_or_other(subject.direction, RecordKind::Z);
                    frame.call_mut().records.push(z);
                }
            }
            Blemish::Code if subject.kind == RecordKind::O => {
                let values = &mut frame.record_mut().values;
                collection_flaws::spoil_code(self.random, &mut values.text);
            }
            Blemish::Boleto | Blemish::Code | Blemish::Kind => {}
            Blemish::Registration => {
                let values = &mut frame.record_mut().values;
                registration_flaws::spoil_number(self.random, subject.kind, values);
            }
            Blemish::Field => {
                let fields = call_flaws::fields_to_spoil(subject);
                if !fields.is_empty() {
                    let field = self.random.pick(&fields);
                    let values = &mut frame.record_mut().values;
                    call_flaws::spoil_field(self.random, field, values);
                }
            }
            Blemish::Byte => {
                let values = &mut frame.record_mut().values;
                call_flaws::spoil_byte(self.random, subject.kind, values);
            }
        }
    }

    /// A wrong byte or a wrong field in the frame's record.
    pub fn put_any_flaw(&mut self, frame: &mut Frame) {
        let flaw = self.random.pick(&[Blemish::Field, Blemish::Byte]);
        self.put(frame, flaw);
    }

    /// The same for a call that has no frame, or a wrong CPF or CNPJ.
    pub fn put_flaw_into(&mut self, call: &mut WriterCall) {
        let kinds = call.kinds();
        let at = self.random.below(kinds.len());
        spoil_record(self.random, kinds[at], call, at);
    }
}

fn spoil_record(random: &mut Random, kind: RecordKind, call: &mut WriterCall, at: usize) {
    let direction = Direction::Remittance;
    let fields = call_flaws::fields_to_spoil(Subject { kind, direction });
    let values = &mut call.records[at].values;
    let has_number = !table::registrations(kind).is_empty();
    if has_number && random.below(WRONG_NUMBER_ONCE_IN) == 0 {
        registration_flaws::spoil_number(random, kind, values);
    } else if fields.is_empty() || random.coin() {
        call_flaws::spoil_byte(random, kind, values);
    } else {
        let field = random.pick(&fields);
        call_flaws::spoil_field(random, field, values);
    }
}
