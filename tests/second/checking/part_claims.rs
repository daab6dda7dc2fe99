//! What a file in parts has to be answered, told by the whole-file check alone:
//! for every cutting the answers taken together are its answer, and each refusal
//! comes with the byte that makes it due.

use crate::paper::answers::{Answer, AnswerLine, Verdict};
use crate::paper::file_reader::check_file;
use crate::paper::lines::LINE_BYTES;
use crate::paper::numbers::{BEHIND_THE_END, NO_END, WRONG_LENGTH};
use crate::paper::parts::{PartCall, OVER};

/// Of an acceptance's numbers.
const RECORDS_AT: usize = 1;

pub fn answer_by_the_whole_file(calls: &[PartCall]) -> Answer {
    let whole = check_file(&bytes_before_the_end(calls));
    let due = bytes_until_refused(whole.verdict);
    let (mut came, mut ended) = (0, false);
    let lines = calls.iter().map(|call| match call {
        _ if ended => AnswerLine::plain(said_behind(whole.verdict)),
        PartCall::End => {
            ended = true;
            whole.clone()
        }
        PartCall::Part(bytes) => {
            came += bytes.len();
            let refused = due.is_some_and(|due| came >= due);
            AnswerLine::plain(if refused {
                whole.verdict
            } else {
                Verdict::Accepted
            })
        }
    });
    Answer::of_parts(lines.collect(), accepted_lines(&whole))
}

/// Or all bytes, if no end is declared.
pub fn bytes_before_the_end(calls: &[PartCall]) -> Vec<u8> {
    let parts = calls.iter().map_while(|call| match call {
        PartCall::Part(bytes) => Some(*bytes),
        PartCall::End => None,
    });
    parts.collect::<Vec<&[u8]>>().concat()
}

/// Nothing for what only the end can say.
fn bytes_until_refused(whole: Verdict) -> Option<usize> {
    match whole {
        Verdict::Accepted => None,
        Verdict::Refused { number, line, .. } => match number {
            WRONG_LENGTH | NO_END => None,
            BEHIND_THE_END => Some((line as usize - 1) * LINE_BYTES + 1),
            _ => Some(line as usize * LINE_BYTES),
        },
    }
}

fn said_behind(end: Verdict) -> Verdict {
    match end {
        Verdict::Accepted => OVER,
        refusal => refusal,
    }
}

/// A refusal names the line behind them.
fn accepted_lines(whole: &AnswerLine) -> u64 {
    match whole.verdict {
        Verdict::Accepted => whole.numbers[RECORDS_AT],
        Verdict::Refused { line, .. } => line - 1,
    }
}
