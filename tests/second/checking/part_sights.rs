//! What can be seen in the files in parts of a run.

use std::cmp::Ordering;

use crate::asking::part_calls::PartMisfit;
use crate::checking::movement_tally::Mix;
use crate::checking::script_sights::code;
use crate::paper::answers::{AnswerLine, Verdict};
use crate::paper::file_reader::check_file;
use crate::paper::lines::LINE_BYTES;
use crate::paper::numbers::{BEHIND_THE_END, NO_END, OUT_OF_TURN, WRONG_LENGTH};
use crate::paper::parts::PartCall;
use crate::paper::payments::{payments_of, totals_of};
use crate::paper::places::{DIRECTION, TYPE};

/// A part that is longer has a length of more than 16 bits.
const LONGEST_IN_16_BITS: usize = 65_535;

#[derive(Clone, Copy, PartialEq, Eq, PartialOrd, Ord, Debug)]
pub enum Sort {
    EmptyPart,
    Part,
    End,
}

impl Sort {
    fn of(call: &PartCall) -> Sort {
        match call {
            PartCall::Part([]) => Sort::EmptyPart,
            PartCall::Part(_) => Sort::Part,
            PartCall::End => Sort::End,
        }
    }
}

/// How a refused line came.
#[derive(Clone, Copy, PartialEq, Eq, PartialOrd, Ord, Debug)]
pub enum Coming {
    /// At the beginning of a part that has all of it.
    FirstOfItsPart,
    BehindLinesOfItsPart,
    InSeveralParts,
}

/// How much stands behind type 9 in the part that is refused for it.
#[derive(Clone, Copy, PartialEq, Eq, PartialOrd, Ord, Debug)]
pub enum Amount {
    OneByte,
    PartOfALine,
    Line,
    MoreThanALine,
}

impl Amount {
    fn of(bytes: usize) -> Amount {
        match bytes {
            1 => Amount::OneByte,
            LINE_BYTES => Amount::Line,
            _ if bytes < LINE_BYTES => Amount::PartOfALine,
            _ => Amount::MoreThanALine,
        }
    }
}

/// Something seen in a file in parts. Directions and kinds of records are named
/// by their codes.
#[derive(Clone, Copy, PartialEq, Eq, PartialOrd, Ord, Debug)]
pub enum Sight {
    /// Two parts meet behind so many bytes of a line: of an accepted file, or of
    /// the line that is refused.
    Cut {
        behind: usize,
        refused: bool,
    },
    /// In an accepted file.
    PartOf {
        bytes: usize,
    },
    LongPart,
    /// Of an accepted file.
    Batch {
        direction: char,
        first: char,
        mix: Mix,
    },
    Z {
        first: char,
    },
    RefusedLine {
        number: u32,
        coming: Coming,
    },
    /// In the part of the type 9 line, or in a later one.
    BytesBehind {
        later: bool,
        amount: Amount,
    },
    EmptyPartBehindType9,
    /// The end with so many bytes of a line.
    Unfinished {
        bytes: usize,
    },
    /// One of them outside 32-126.
    UnfinishedWithWrongByte,
    /// Behind a refusal with this number, or behind an accepted end.
    CallBehind {
        number: u32,
        call: Sort,
    },
    /// A refused end, and behind it what would make the file whole.
    RepairedInVain {
        number: u32,
    },
    /// No end is declared.
    Open {
        refused: bool,
    },
    EndAlone,
    NoCall,
    NoCalls {
        misfit: PartMisfit,
    },
}

/// What is to be seen in these calls, which were answered so.
pub fn sights_of(calls: &[PartCall], answers: &[AnswerLine]) -> Vec<Sight> {
    let mut walk = Walk::default();
    for (call, answer) in calls.iter().zip(answers) {
        walk.watch(call, answer.verdict);
    }
    match calls {
        [] => walk.sights.push(Sight::NoCall),
        [PartCall::End] => walk.sights.push(Sight::EndAlone),
        _ => {}
    }
    let ends = calls.iter().any(|call| Sort::of(call) == Sort::End);
    if !ends {
        let refused = walk.kept.is_some();
        walk.sights.push(Sight::Open { refused });
    }
    walk.sights
}

/// The calls as they come one by one.
#[derive(Default)]
struct Walk {
    bytes: Vec<u8>,
    /// Where a part ends.
    cuts: Vec<usize>,
    /// The number of the refusal, or of what is said behind the end.
    kept: Option<u32>,
    sights: Vec<Sight>,
}

impl Walk {
    fn watch(&mut self, call: &PartCall, verdict: Verdict) {
        match (self.kept, call, verdict) {
            (Some(number), _, _) => self.watch_behind(number, call),
            (None, PartCall::Part(bytes), Verdict::Accepted) => self.add(bytes),
            (None, PartCall::Part(bytes), Verdict::Refused { number, line, .. }) => {
                self.refused_part(bytes, number, line as usize);
            }
            (None, PartCall::End, Verdict::Accepted) => self.accepted_end(),
            (None, PartCall::End, Verdict::Refused { number, .. }) => self.refused_end(number),
        }
    }

    fn watch_behind(&mut self, number: u32, call: &PartCall) {
        let sort = Sort::of(call);
        self.sights.push(Sight::CallBehind { number, call: sort });
        if let (WRONG_LENGTH | NO_END, PartCall::Part(bytes)) = (number, call) {
            self.bytes.extend_from_slice(bytes);
            if check_file(&self.bytes).verdict == Verdict::Accepted {
                self.sights.push(Sight::RepairedInVain { number });
            }
        }
    }

    fn add(&mut self, bytes: &[u8]) {
        if bytes.is_empty() && self.is_behind_type_9() {
            self.sights.push(Sight::EmptyPartBehindType9);
        }
        self.bytes.extend_from_slice(bytes);
        self.cuts.push(self.bytes.len());
    }

    /// All lines so far are accepted.
    fn is_behind_type_9(&self) -> bool {
        let lines = self.bytes.chunks(LINE_BYTES);
        let last = lines.last().filter(|line| line.len() == LINE_BYTES);
        last.is_some_and(|line| TYPE.of(line) == b"9")
    }

    fn refused_part(&mut self, bytes: &[u8], number: u32, line: usize) {
        let (part, start) = (self.bytes.len(), (line - 1) * LINE_BYTES);
        if number == BEHIND_THE_END {
            let amount = Amount::of(part + bytes.len() - start);
            let later = part == start;
            self.sights.push(Sight::BytesBehind { later, amount });
        } else {
            let coming = match part.cmp(&start) {
                Ordering::Less => Coming::BehindLinesOfItsPart,
                Ordering::Equal => Coming::FirstOfItsPart,
                Ordering::Greater => Coming::InSeveralParts,
            };
            self.sights.push(Sight::RefusedLine { number, coming });
        }
        self.cuts_behind(start, true);
        self.kept = Some(number);
    }

    /// Where parts meet behind this place.
    fn cuts_behind(&mut self, start: usize, refused: bool) {
        let inside = self.cuts.iter().filter(|cut| **cut > start);
        let behind = inside.map(|cut| cut % LINE_BYTES);
        let cuts = behind.map(|behind| Sight::Cut { behind, refused });
        self.sights.extend(cuts);
    }

    fn refused_end(&mut self, number: u32) {
        if number == WRONG_LENGTH {
            let bytes = self.bytes.len() % LINE_BYTES;
            self.sights.push(Sight::Unfinished { bytes });
            let begun = &self.bytes[self.bytes.len() - bytes..];
            if !begun.iter().all(|byte| (b' '..=b'~').contains(byte)) {
                self.sights.push(Sight::UnfinishedWithWrongByte);
            }
        }
        self.kept = Some(number);
    }

    fn accepted_end(&mut self) {
        self.cuts_behind(0, false);
        let begins = [0].into_iter().chain(self.cuts.iter().copied());
        let lengths = self.cuts.iter().zip(begins);
        for bytes in lengths.map(|(end, begin)| end - begin) {
            self.sights.push(Sight::PartOf { bytes });
            if bytes > LONGEST_IN_16_BITS {
                self.sights.push(Sight::LongPart);
            }
        }
        self.sights.extend(sights_of_batches(&self.bytes));
        self.kept = Some(OUT_OF_TURN);
    }
}

fn sights_of_batches(file: &[u8]) -> Vec<Sight> {
    let mut sights = Vec::new();
    let direction = char::from(DIRECTION.of(file)[0]);
    let payments = payments_of(file.chunks(LINE_BYTES));
    for batch in payments.chunk_by(|one, next| one.batch == next.batch) {
        let first = code(batch[0].kind);
        let mix = Mix::of(totals_of(batch));
        sights.extend(mix.map(|mix| Sight::Batch {
            direction,
            first,
            mix,
        }));
        if batch.iter().any(|payment| payment.has_z()) {
            sights.push(Sight::Z { first });
        }
    }
    sights
}
