//! Claims of request 2 about the two numbers of an A that may be not given,
//! checked over the second program's own rules: where one fails, the second
//! program is wrong.

use crate::asking::probe::untouched;
use crate::damage::absence_flaws::{always_given, LARGE_NUMBERS};
use crate::making::absences::{self, all_pairs, put_pair};
use crate::making::good_records::good_record;
use crate::making::random::Random;
use crate::paper::answers::{Answer, Verdict};
use crate::paper::guarded_places::{guarded_places, LineOfFile};
use crate::paper::layout_table as table;
use crate::paper::lines::{LINE_END, RECORD_BYTES};
use crate::paper::places::NOT_THERE_YET;
use crate::paper::record_kinds::{Direction, RecordKind, Subject, DIRECTIONS};
use crate::paper::records::{Records, Values};
use crate::paper::Paper;

const SEED: u64 = 17;
const KIND: RecordKind = RecordKind::A;
/// Where the two stand among the fields of an A.
const INDICES: [usize; 2] = [21, 22];
const REFUSALS_OF_BLANKS: [u32; 3] = [8, 14, 15];

/// How many changes of one byte were accepted, and how many refused.
pub struct Changes {
    pub accepted: usize,
    pub refused: usize,
}

pub fn check() -> Result<Changes, String> {
    let mut random = Random::with_seed(SEED);
    let mut changes = Changes {
        accepted: 0,
        refused: 0,
    };
    for direction in DIRECTIONS {
        for pair in all_pairs() {
            let subject = of_a(direction);
            let mut record = good_record(&mut random, subject);
            put_pair(&mut random, &mut record, pair);
            is_said(subject, &record)?;
            comes_back(subject, &record)?;
            is_unguarded(direction, &record)?;
            every_change(subject, &record, &mut changes)?;
            no_number_for_blanks(subject, &record)?;
            always_given_ones(subject, &record)?;
        }
    }
    Ok(changes)
}

fn of_a(direction: Direction) -> Subject {
    Subject {
        kind: KIND,
        direction,
    }
}

/// `_` for blanks and nothing else, and for digits what they say.
fn is_said(subject: Subject, record: &[u8]) -> Result<(), String> {
    let line = Paper.read_record(subject, record).lines[0].to_string();
    // The first word is the acceptance.
    let words: Vec<&str> = line.split(' ').skip(1).collect();
    for (index, part) in INDICES.into_iter().zip(NOT_THERE_YET) {
        let content = String::from_utf8_lossy(part.of(record)).to_string();
        let said = match content.trim_start_matches('0') {
            _ if content.trim().is_empty() => "_",
            "" => "0",
            digits => digits,
        };
        demand(words.get(index) == Some(&said), "what is said of a number")?;
    }
    let others = words.iter().enumerate();
    let mut others = others.filter(|(index, _)| !INDICES.contains(index));
    demand(
        others.all(|(_, word)| *word != "_"),
        "what is said of others",
    )
}

/// What is read is written back, blanks as blanks.
fn comes_back(subject: Subject, record: &[u8]) -> Result<(), String> {
    let written = written(subject, &Values::of_record(KIND, record));
    demand(written.memory.as_deref() == Some(record), "the way back")
}

fn written(subject: Subject, values: &Values) -> Answer {
    Paper.write_record(subject, values, untouched(RECORD_BYTES))
}

fn is_unguarded(direction: Direction, record: &[u8]) -> Result<(), String> {
    let line = [record, LINE_END].concat();
    let guarded = guarded_places(LineOfFile {
        kind: KIND,
        bytes: &line,
        direction,
        before: None,
    });
    let mut places = NOT_THERE_YET.into_iter().flat_map(|part| part.places());
    let unguarded = places.all(|place| !guarded.contains(&place));
    demand(unguarded, "places without a claim")
}

/// One byte changed is refused or not by the rule of its own field alone.
fn every_change(subject: Subject, record: &[u8], changes: &mut Changes) -> Result<(), String> {
    for part in NOT_THERE_YET {
        for place in part.places() {
            for byte in (0..=u8::MAX).filter(|byte| *byte != record[place - 1]) {
                let mut changed = record.to_vec();
                changed[place - 1] = byte;
                let content = part.of(&changed);
                let right = [b' '..=b' ', b'0'..=b'9']
                    .iter()
                    .any(|sort| content.iter().all(|byte| sort.contains(byte)));
                let refusal = match byte {
                    _ if right => None,
                    b' '..=b'~' => Some(format!("NO 8 0 {}", part.first)),
                    _ => Some(format!("NO 4 0 {place}")),
                };
                let answer = Paper.read_record(subject, &changed);
                let said = answer.lines[0].verdict;
                let said = (said != Verdict::Accepted).then(|| said.to_string());
                demand(said == refusal, "a change of one byte")?;
                changes.accepted += usize::from(right);
                changes.refused += usize::from(!right);
            }
        }
    }
    Ok(())
}

/// A number is written with its digits, or it is refused.
fn no_number_for_blanks(subject: Subject, record: &[u8]) -> Result<(), String> {
    for (index, field) in absences::fields() {
        for number in LARGE_NUMBERS {
            let mut values = Values::of_record(KIND, record);
            values.numbers[index] = Some(number);
            let answer = written(subject, &values);
            let digits = format!("{number:0width$}", width = field.width());
            let right = if digits.len() == field.width() {
                let memory = answer.memory.as_deref();
                memory.map(|memory| field.of(memory)) == Some(digits.as_bytes())
            } else {
                answer.lines[0].to_string() == format!("NO 8 0 {}", field.first)
            };
            demand(right, "a number that might stand for blanks")?;
        }
    }
    Ok(())
}

/// 'Not given' said of any other number is the fault that its blanks would be.
fn always_given_ones(subject: Subject, record: &[u8]) -> Result<(), String> {
    let numbers = always_given(KIND).into_iter();
    for field in numbers.filter(|field| field.is_number()) {
        let mut values = Values::of_record(KIND, record);
        let fields = table::fields(KIND).into_iter();
        for (number, _) in values
            .numbers
            .iter_mut()
            .zip(fields)
            .filter(|(_, f)| *f == field)
        {
            *number = None;
        }
        let right = match written(subject, &values).lines[0].verdict {
            Verdict::Refused { number, place, .. } => {
                REFUSALS_OF_BLANKS.contains(&number) && place == field.first
            }
            Verdict::Accepted => false,
        };
        demand(right, "'not given' of a number that is always given")?;
    }
    Ok(())
}

fn demand(holds: bool, claim: &str) -> Result<(), String> {
    if holds {
        return Ok(());
    }
    Err(format!("{claim}: not as request 2 says"))
}
