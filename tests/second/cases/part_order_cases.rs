//! The requests about the order of calls of a file in parts: ends too early and
//! too often, and whatever comes behind a refusal or behind the end.

use crate::cases::file_cases::FileCases;
use crate::cases::part_cases::calls_of;
use crate::making::cuttings::{any_cutting, NOTHING};
use crate::making::good_files::any_file;
use crate::paper::parts::PartCall;

const EARLY_ENDS: usize = 200;
const CALLS_BEHIND_AN_END: usize = 200;
const CALLS_BEHIND_A_REFUSAL: usize = 200;
const MIXTURES: usize = 300;
const WITHOUT_END: usize = 100;
const MOST_CALLS_BEHIND: usize = 4;
const CALL_BETWEEN_ONCE_IN: usize = 6;

impl FileCases<'_> {
    pub fn ask_orders_of_calls(&mut self) {
        self.early_ends();
        self.calls_behind_an_end();
        self.calls_behind_a_refusal();
        self.mixtures_of_calls();
        self.parts_without_end();
    }

    /// The parts behind it would make the file whole.
    fn early_ends(&mut self) {
        for _ in 0..EARLY_ENDS {
            let bytes = any_file(self.random).bytes();
            let mut calls = calls_of(any_cutting(self.random, &bytes));
            let early = self.random.below(calls.len());
            calls.insert(early, PartCall::End);
            calls.push(PartCall::End);
            self.ask_parts(&calls);
        }
    }

    /// Of a good file.
    fn calls_behind_an_end(&mut self) {
        for _ in 0..CALLS_BEHIND_AN_END {
            let bytes = any_file(self.random).bytes();
            let mut calls = calls_of(any_cutting(self.random, &bytes));
            calls.push(PartCall::End);
            self.add_calls_behind(&mut calls, &bytes);
            self.ask_parts(&calls);
        }
    }

    fn calls_behind_a_refusal(&mut self) {
        for _ in 0..CALLS_BEHIND_A_REFUSAL {
            let bytes = self.file_to_refuse();
            let mut calls = calls_of(any_cutting(self.random, &bytes));
            self.add_calls_behind(&mut calls, &bytes);
            self.ask_parts(&calls);
        }
    }

    fn good_or_not(&mut self) -> Vec<u8> {
        if self.random.coin() {
            any_file(self.random).bytes()
        } else {
            self.file_to_refuse()
        }
    }

    fn file_to_refuse(&mut self) -> Vec<u8> {
        match self.random.below(4) {
            0 => {
                let bytes = any_file(self.random).bytes();
                let behind = self.bytes_behind(&bytes);
                [bytes, behind].concat()
            }
            1 => self.begun_wrongly(),
            _ => self.flawed_file(),
        }
    }

    /// Empty parts, bytes of the file, all of it, and ends; among them often
    /// the whole file with its end.
    fn add_calls_behind<'a>(&mut self, calls: &mut Vec<PartCall<'a>>, bytes: &'a [u8]) {
        for _ in 0..self.random.between(1, MOST_CALLS_BEHIND) {
            match self.random.below(6) {
                0 | 1 => calls.push(PartCall::Part(NOTHING)),
                2 => calls.push(self.any_part(bytes)),
                3 => calls.extend([PartCall::Part(bytes), PartCall::End]),
                _ => calls.push(PartCall::End),
            }
        }
    }

    /// Not empty, and from anywhere in the file.
    fn any_part<'a>(&mut self, bytes: &'a [u8]) -> PartCall<'a> {
        let begin = self.random.below(bytes.len());
        let end = self.random.between(begin + 1, bytes.len());
        PartCall::Part(&bytes[begin..end])
    }

    /// With calls between the parts and behind them.
    fn mixtures_of_calls(&mut self) {
        for _ in 0..MIXTURES {
            let bytes = self.good_or_not();
            let mut calls = Vec::new();
            for part in any_cutting(self.random, &bytes) {
                match self.random.below(CALL_BETWEEN_ONCE_IN) {
                    0 => calls.push(PartCall::Part(NOTHING)),
                    1 if self.random.coin() => calls.push(PartCall::End),
                    _ => {}
                }
                calls.push(PartCall::Part(part));
            }
            self.add_calls_behind(&mut calls, &bytes);
            self.ask_parts(&calls);
        }
    }

    fn parts_without_end(&mut self) {
        for _ in 0..WITHOUT_END {
            let bytes = self.good_or_not();
            let calls = calls_of(any_cutting(self.random, &bytes));
            self.ask_parts(&calls);
        }
    }
}
