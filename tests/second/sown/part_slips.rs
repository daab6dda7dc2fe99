//! Mistakes of the checker that takes a file in parts about the bytes of a part:
//! it looks at them too early or too late, or loses some of them.

use super::part_faults::PartFault;
use super::parts::SownParts;
use crate::paper::answers::Verdict;
use crate::paper::file_state::Stage;
use crate::paper::line_rules::LineRules;
use crate::paper::lines::{LINE_BYTES, LINE_END, RECORD_BYTES};
use crate::paper::numbers::{BEHIND_THE_END, WRONG_LENGTH, WRONG_LINE_END, WRONG_TYPE};
use crate::paper::parts::PartCall;
use crate::paper::places::TYPE;
use crate::paper::record_kinds::Direction;
use crate::paper::record_rules::{RecordRules, Refusal};
use crate::paper::totals::Totals;
use crate::paper::Paper;

impl SownParts {
    pub fn part(&mut self, bytes: &[u8]) -> Verdict {
        self.forget_between_parts();
        self.lose_held(bytes);
        let ended_before = self.inner.lines.state.has_ended();
        let lines_before = self.inner.accepted_lines();
        let taken = self.taken_of(bytes);
        let mut rest = taken.as_slice();
        while !rest.is_empty() {
            let (piece, behind) = rest.split_at(self.next_piece(rest));
            let piece = self.seen_of(piece, ended_before);
            let verdict = self.look_at(&piece);
            if verdict != Verdict::Accepted {
                return verdict;
            }
            rest = behind;
        }
        self.lose_behind(self.inner.accepted_lines() > lines_before);
        match self.early_refusal(bytes) {
            Some((number, place)) => Verdict::Refused {
                number,
                line: self.inner.accepted_lines() + 1,
                place,
            },
            None => Verdict::Accepted,
        }
    }

    fn forget_between_parts(&mut self) {
        let state = &mut self.inner.lines.state;
        match (self.fault, &mut state.stage) {
            (Some(PartFault::DirectionForgottenBetweenParts), _) => {
                state.direction = Direction::Remittance;
            }
            (Some(PartFault::SumForgottenBetweenParts), Stage::InBatch(batch)) => {
                batch.totals = Totals::default();
            }
            (Some(PartFault::TotalsForgottenBetweenParts), _) => state.totals = Totals::default(),
            _ => {}
        }
    }

    /// Before the part is taken.
    fn lose_held(&mut self, bytes: &[u8]) {
        let inside_a_line = self.is_inside_a_line(bytes);
        let lost = match self.fault {
            Some(PartFault::HeldBytesLostAtAnEmptyPart) => bytes.is_empty(),
            Some(PartFault::HeldBytesReplaced) => inside_a_line && !bytes.is_empty(),
            _ => false,
        };
        if lost {
            self.keep_ahead(0);
        }
    }

    fn is_inside_a_line(&self, bytes: &[u8]) -> bool {
        let held = self.inner.ahead().len();
        held > 0 && held + bytes.len() < LINE_BYTES
    }

    /// Keeps so many of the bytes behind the accepted lines.
    pub fn keep_ahead(&mut self, kept: usize) {
        let begin = self.inner.given.len() - self.inner.ahead().len();
        self.inner.given.truncate(begin + kept);
    }

    /// What is looked at of a part, with what has waited; the rest waits, or is
    /// lost.
    fn taken_of(&mut self, bytes: &[u8]) -> Vec<u8> {
        let mut taken = std::mem::take(&mut self.waiting);
        taken.extend_from_slice(bytes);
        let held = self.inner.ahead().len();
        let ends_a_line = !taken.is_empty() && (held + taken.len()) % LINE_BYTES == 0;
        let to_line_end = taken.len().min(LINE_BYTES - held);
        match self.fault {
            Some(PartFault::AllPutOffToTheEnd) => self.waiting.append(&mut taken),
            Some(PartFault::LineJudgedAByteLate) if ends_a_line => {
                self.waiting.extend(taken.pop());
            }
            Some(PartFault::LineAtTheEndOfAPartPutOff) if ends_a_line && !bytes.is_empty() => {
                self.waiting.extend(taken.pop());
            }
            Some(PartFault::OneLineOfAPartJudged) => {
                self.waiting = taken.split_off(to_line_end);
            }
            Some(PartFault::LinesBehindTheFirstLost) => taken.truncate(to_line_end),
            Some(PartFault::PartInsideALineLost) if self.is_inside_a_line(&taken) => taken.clear(),
            Some(PartFault::LengthsIn8Bits) => taken.truncate(usize::from(bytes.len() as u8)),
            Some(PartFault::LengthsIn16Bits) => taken.truncate(usize::from(bytes.len() as u16)),
            _ => {}
        }
        taken
    }

    /// As far as the line goes that is begun; behind type 9, all of the rest.
    fn next_piece(&self, rest: &[u8]) -> usize {
        match self.fault {
            _ if self.inner.lines.state.has_ended() => rest.len(),
            Some(PartFault::PartsTakenForLines) => rest.len(),
            Some(PartFault::PartAsLongAsALineTakenForOne) if rest.len() == LINE_BYTES => LINE_BYTES,
            _ => rest.len().min(LINE_BYTES - self.inner.ahead().len()),
        }
    }

    /// Behind type 9 not all may be seen.
    fn seen_of(&mut self, piece: &[u8], ended_before: bool) -> Vec<u8> {
        let mut behind = piece.to_vec();
        if !self.inner.lines.state.has_ended() {
            return behind;
        }
        match self.fault {
            Some(PartFault::BytesBehindSeenAtTheEnd) => self.waiting.append(&mut behind),
            Some(PartFault::BytesBehindSeenAsALine) if behind.len() < LINE_BYTES => {
                self.waiting.append(&mut behind);
            }
            Some(PartFault::BytesBehindInThatPartUnseen) if !ended_before => behind.clear(),
            Some(PartFault::BytesBehindInLaterPartsUnseen) if ended_before => behind.clear(),
            Some(PartFault::BlanksTakenBehindType9) => behind.retain(|byte| *byte != b' '),
            Some(PartFault::LineEndsTakenBehindType9) => {
                behind.retain(|byte| !LINE_END.contains(byte));
            }
            _ => {}
        }
        behind
    }

    fn look_at(&mut self, piece: &[u8]) -> Verdict {
        let as_a_line = match self.fault {
            Some(PartFault::PartsTakenForLines) => true,
            Some(PartFault::PartAsLongAsALineTakenForOne) => piece.len() == LINE_BYTES,
            _ => false,
        };
        if !as_a_line {
            return self.inner.call(PartCall::Part(piece)).verdict;
        }
        // The line stands before the bytes that are held.
        let begin = self.inner.given.len() - self.inner.ahead().len();
        let verdict = self.inner.lines.line(piece);
        if verdict == Verdict::Accepted {
            self.inner.given.splice(begin..begin, piece.iter().copied());
        }
        verdict
    }

    /// Behind a part that was taken.
    fn lose_behind(&mut self, has_whole_line: bool) {
        match self.fault {
            Some(PartFault::TailOfAPartLost) if has_whole_line => self.keep_ahead(0),
            Some(PartFault::HeldBytesEndAt240) => {
                self.keep_ahead(self.inner.ahead().len().min(RECORD_BYTES));
            }
            _ => {}
        }
    }

    /// Of a line that is not complete.
    fn early_refusal(&self, part: &[u8]) -> Option<Refusal> {
        let (state, begun) = (&self.inner.lines.state, self.inner.ahead());
        let record = &begun[..begun.len().min(RECORD_BYTES)];
        match self.fault? {
            PartFault::WrongByteSeenAtOnce => Paper.byte_refusal(record),
            PartFault::TypeSeenAtOnce if begun.len() >= TYPE.last => {
                let allowed = Paper.kind_here(state, &padded(begun)).is_some();
                (!allowed).then_some((WRONG_TYPE, TYPE.first))
            }
            PartFault::RecordJudgedBeforeItsLineEnd if record.len() == RECORD_BYTES => {
                Paper.line_refusal(state, &[record, LINE_END].concat())
            }
            PartFault::LineJudgedBeforeItsLineFeed if begun.len() > RECORD_BYTES => {
                Paper.line_refusal(state, &[begun, &LINE_END[1..]].concat())
            }
            PartFault::LineFeedEndsALine => begun.contains(&b'\n').then_some((WRONG_LENGTH, 0)),
            PartFault::LineEndCutInTwoRefused if begun.len() > RECORD_BYTES => {
                Some((WRONG_LINE_END, LINE_BYTES))
            }
            PartFault::EmptyPartBehindType9Refused if part.is_empty() && state.has_ended() => {
                Some((BEHIND_THE_END, 0))
            }
            _ => None,
        }
    }
}

/// Blanks as far as the line would go.
fn padded(begun: &[u8]) -> Vec<u8> {
    let mut line = begun.to_vec();
    line.resize(LINE_BYTES, b' ');
    line
}
