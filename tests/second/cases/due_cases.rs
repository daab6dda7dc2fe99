//! The requests about due dates around turns: each with its own factor, with
//! none, and with every factor that might be taken for its own.

use crate::asking::probe::Request;
use crate::cases::file_cases::FileCases;
use crate::damage::due_flaws::likely_wrong_factors;
use crate::making::due_dates::{DueDate, AROUND_TURNS};
use crate::making::good_files::{file_of, put_factor, BatchShape};
use crate::making::random::Random;
use crate::paper::file_state::BatchKind;
use crate::paper::places::DUE;
use crate::paper::record_kinds::{RecordKind, DIRECTIONS};

const ONE_BOLETO: BatchShape = BatchShape {
    kind: BatchKind::Boleto,
    payments: 1,
};

pub fn requests(random: &mut Random) -> Vec<Request> {
    let mut cases = FileCases::new(random);
    for (due, own) in AROUND_TURNS {
        let mut factors = likely_wrong_factors(&due);
        factors.push(0);
        factors.extend(own);
        for factor in factors {
            ask_due(&mut cases, due, factor);
        }
    }
    cases.requests
}

fn ask_due(cases: &mut FileCases, due: DueDate, factor: u32) {
    for direction in DIRECTIONS {
        let mut file = file_of(cases.random, direction, &[ONE_BOLETO]);
        for at in file.positions(RecordKind::J) {
            let line = &mut file.lines[at].bytes;
            DUE.put(line, &due);
            put_factor(line, factor);
        }
        cases.ask_file(file.bytes());
    }
}
