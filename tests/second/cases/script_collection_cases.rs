//! Scripts with O records: codes of every sort, and payments of one, two and three
//! records in every kind of batch.

use crate::cases::script_cases::ScriptCases;
use crate::cases::script_kind_cases::is_no_payment;
use crate::damage::call_flaws::{fields_to_spoil, spoil_field};
use crate::damage::collection_flaws::{codes_of_note, one_of_each_number};
use crate::making::good_calls::Frame;
use crate::paper::file_state::{BatchKind, BATCH_KINDS};
use crate::paper::places::CODE;
use crate::paper::record_kinds::{Direction, RecordKind, Subject, DIRECTIONS};

const DETAILS: [RecordKind; 6] = [
    RecordKind::A,
    RecordKind::B,
    RecordKind::J,
    RecordKind::J52,
    RecordKind::O,
    RecordKind::Z,
];
const REPEATS_PER_FIELD: usize = 3;

impl ScriptCases<'_> {
    pub fn ask_collections(&mut self) {
        for direction in DIRECTIONS {
            self.codes(direction);
            self.codes_beside_wrong_fields(direction);
            for batch in BATCH_KINDS {
                self.payments_of_one(direction, batch);
                self.payments_of_two(direction, batch);
                self.payments_of_three(direction, batch);
            }
        }
    }

    fn codes(&mut self, direction: Direction) {
        for code in codes_of_note(self.random) {
            self.ask_changed_o(direction, |_, frame| {
                CODE.put(&mut frame.record_mut().values.text, &code);
            });
        }
    }

    fn codes_beside_wrong_fields(&mut self, direction: Direction) {
        let kind = RecordKind::O;
        for field in fields_to_spoil(Subject { kind, direction }) {
            // Not every number put into a field is wrong there.
            for _ in 0..REPEATS_PER_FIELD {
                for code in one_of_each_number(self.random) {
                    self.ask_changed_o(direction, |cases, frame| {
                        let values = &mut frame.record_mut().values;
                        CODE.put(&mut values.text, &code);
                        spoil_field(cases.random, field, values);
                    });
                }
            }
        }
    }

    fn ask_changed_o(
        &mut self,
        direction: Direction,
        change: impl Fn(&mut ScriptCases, &mut Frame),
    ) {
        let kind = RecordKind::O;
        if let Some(good) = Frame::around(self.random, Subject { kind, direction }) {
            let mut changed = good.clone();
            change(self, &mut changed);
            self.ask_spoiled(&good, &changed);
        }
    }

    /// An O; of another kind there is none.
    fn payments_of_one(&mut self, direction: Direction, batch: BatchKind) {
        for kind in DETAILS {
            self.ask_payment(direction, batch, &[kind]);
        }
    }

    fn payments_of_two(&mut self, direction: Direction, batch: BatchKind) {
        for first in DETAILS {
            for second in DETAILS {
                self.ask_payment(direction, batch, &[first, second]);
            }
        }
    }

    /// Those with an O, and those that are right in another batch.
    fn payments_of_three(&mut self, direction: Direction, batch: BatchKind) {
        let o = RecordKind::O;
        for first in DETAILS {
            for second in DETAILS {
                self.ask_payment(direction, batch, &[o, first, second]);
                self.ask_payment(direction, batch, &[first, second, o]);
            }
        }
        for other in BATCH_KINDS {
            let mut kinds = other.payment_kinds().to_vec();
            while kinds.len() < 3 {
                kinds.push(RecordKind::Z);
            }
            self.ask_payment(direction, batch, &kinds);
        }
    }

    /// In the place of a good payment. A record that is no O, alone, makes the
    /// whole request malformed.
    fn ask_payment(&mut self, direction: Direction, batch: BatchKind, kinds: &[RecordKind]) {
        let good = self.payment_frame(direction, batch);
        let mut other = good.clone();
        let records = kinds
            .iter()
            .map(|kind| self.detail_or_other(direction, *kind));
        other.call_mut().records = records.collect();
        if is_no_payment(&other.call().records) {
            self.ask_calls(&other.calls);
        } else {
            self.ask_spoiled(&good, &other);
        }
    }
}
