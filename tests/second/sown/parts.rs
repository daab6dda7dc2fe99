//! Mistakes of the checker that takes a file in parts, around its calls: what it
//! says behind a refusal and behind the end, and what it counts.

use super::faults::Fault;
use super::part_faults::PartFault;
use super::Sown;
use crate::paper::answers::{AnswerLine, Verdict};
use crate::paper::lines::LINE_BYTES;
use crate::paper::numbers::{BEHIND_THE_END, NO_END, WRONG_LENGTH};
use crate::paper::parts::{PartCall, PartChecker, OVER};

/// The paper's checker, with what a fault does before and behind its calls.
pub struct SownParts {
    sown: Sown,
    pub fault: Option<PartFault>,
    pub inner: PartChecker<Sown>,
    /// Bytes that came and are not looked at yet.
    pub waiting: Vec<u8>,
    calls: u64,
    /// All bytes that came, behind a refusal too.
    came: usize,
    /// The lines accepted and the bytes held before the last part that was
    /// taken or refused.
    lines_before: u64,
    held_before: usize,
}

impl SownParts {
    pub fn with(sown: Sown) -> SownParts {
        SownParts {
            sown,
            fault: sown.part_fault(),
            inner: PartChecker::by(sown),
            waiting: Vec::new(),
            calls: 0,
            came: 0,
            lines_before: 0,
            held_before: 0,
        }
    }

    pub fn has(&self, fault: PartFault) -> bool {
        self.fault == Some(fault)
    }

    pub fn call(&mut self, call: PartCall) -> AnswerLine {
        self.calls += 1;
        if let PartCall::Part(bytes) = call {
            self.came += bytes.len();
        }
        match self.inner.kept {
            None => self.open_call(call),
            Some(OVER) => self.call_behind_the_end(call),
            Some(refusal) => self.call_behind(refusal, call),
        }
    }

    fn open_call(&mut self, call: PartCall) -> AnswerLine {
        let mut answer = match call {
            PartCall::Part([]) if self.has(PartFault::EmptyPartTakenForTheEnd) => self.end(),
            PartCall::Part(bytes) => {
                self.lines_before = self.inner.accepted_lines();
                self.held_before = self.inner.ahead().len();
                AnswerLine::plain(self.part(bytes))
            }
            PartCall::End => self.end(),
        };
        if answer.verdict != Verdict::Accepted {
            answer.verdict = self.renamed(answer.verdict);
            self.inner.kept = Some(answer.verdict);
            if is_part(call) && self.has(PartFault::RefusalsSaidAtTheEnd) {
                answer.verdict = Verdict::Accepted;
            }
        }
        answer
    }

    /// What waits is looked at before.
    fn end(&mut self) -> AnswerLine {
        let waiting = std::mem::take(&mut self.waiting);
        self.inner.call(PartCall::Part(&waiting));
        let answer = self.inner.call(PartCall::End);
        let fault = Fault::Parts(PartFault::OldNumbersAtTheEnd);
        self.sown.with_old_numbers(fault, answer)
    }

    /// What a refusal names.
    fn renamed(&self, mut verdict: Verdict) -> Verdict {
        if let Verdict::Refused {
            number,
            line,
            place,
        } = &mut verdict
        {
            match (self.fault, *number) {
                (Some(PartFault::LinesNamedFromThePart), _) => *line -= self.lines_before,
                (Some(PartFault::LinesNamedByCalls), _) => *line = self.calls,
                (Some(PartFault::BytesBehindOnTheLastLine), BEHIND_THE_END) => *line -= 1,
                (Some(PartFault::BytesBehindOutOfTurn), BEHIND_THE_END) => return OVER,
                (Some(PartFault::PlacesNamedFromThePart), _) => {
                    *place = place.saturating_sub(self.held_before);
                }
                (Some(PartFault::UnfinishedEndIsTwo), WRONG_LENGTH) => *number = NO_END,
                _ => {}
            }
        }
        verdict
    }

    /// Once refused, every later call is to say the same.
    fn call_behind(&mut self, refusal: Verdict, call: PartCall) -> AnswerLine {
        if self.has(PartFault::LaterRefusalSaidInstead) {
            return self.later_refusal(refusal, call);
        }
        if self.forgets(refusal, call) {
            self.forget(refusal);
            return self.open_call(call);
        }
        AnswerLine::plain(self.said_behind(refusal, call))
    }

    fn forgets(&self, refusal: Verdict, call: PartCall) -> bool {
        let number = number_of(refusal);
        let by_an_end = is_of_an_end(number);
        match self.fault {
            Some(PartFault::RefusalForgotten) => !by_an_end,
            Some(PartFault::RefusalForgottenAtAnEmptyPart) => is_empty(call),
            Some(PartFault::RefusalForgottenAtTheEnd) => !by_an_end && !is_part(call),
            Some(PartFault::BytesBehindForgotten) => number == BEHIND_THE_END,
            Some(PartFault::EarlyEndForgotten) => number == NO_END,
            Some(PartFault::UnfinishedEndForgotten) => number == WRONG_LENGTH,
            Some(PartFault::RefusedEndRepairedByBytes) => {
                by_an_end && is_part(call) && !is_empty(call)
            }
            _ => false,
        }
    }

    fn said_behind(&self, refusal: Verdict, call: PartCall) -> Verdict {
        match self.fault {
            Some(PartFault::EmptyPartTakenBehindARefusal) if is_empty(call) => Verdict::Accepted,
            Some(PartFault::PartsTakenBehindARefusal | PartFault::RefusalsSaidAtTheEnd)
                if is_part(call) =>
            {
                Verdict::Accepted
            }
            Some(PartFault::OutOfTurnBehindARefusal) => OVER,
            Some(PartFault::OutOfTurnBehindARefusedEnd) if is_of_an_end(number_of(refusal)) => OVER,
            _ => refusal,
        }
    }

    fn later_refusal(&mut self, refusal: Verdict, call: PartCall) -> AnswerLine {
        self.forget(refusal);
        let later = self.open_call(call);
        if later.verdict == Verdict::Accepted {
            self.inner.kept = Some(refusal);
            return AnswerLine::plain(refusal);
        }
        later
    }

    /// The refused line is left out with what came behind it; the bytes that an
    /// end found stay.
    fn forget(&mut self, refusal: Verdict) {
        self.inner.kept = None;
        if !is_of_an_end(number_of(refusal)) {
            self.keep_ahead(0);
        }
    }

    fn call_behind_the_end(&mut self, call: PartCall) -> AnswerLine {
        let said = match (self.fault, call) {
            (Some(PartFault::TotalsSaidAgain), PartCall::End) => return self.inner.lines.end(0),
            (Some(PartFault::EmptyPartTakenBehindTheEnd), PartCall::Part([])) => Verdict::Accepted,
            (Some(PartFault::PartsTakenBehindTheEnd), PartCall::Part(_)) => Verdict::Accepted,
            (Some(PartFault::PartBehindTheEndIsThree), PartCall::Part(bytes)) => {
                self.inner.lines.line(bytes)
            }
            (Some(PartFault::OutOfTurnOnTheNextLine), _) => Verdict::Refused {
                number: number_of(OVER),
                line: self.inner.accepted_lines() + 1,
                place: 0,
            },
            (Some(PartFault::BegunAnewBehindTheEnd), _) => {
                self.inner = PartChecker::by(self.sown);
                return self.open_call(call);
            }
            _ => OVER,
        };
        AnswerLine::plain(said)
    }

    pub fn accepted_lines(&self) -> u64 {
        let right = self.inner.accepted_lines();
        let over = self.inner.kept == Some(OVER);
        let number = self.inner.kept.map_or(0, number_of);
        let refused = number >= BEHIND_THE_END && !over;
        match self.fault {
            Some(PartFault::LinesOfTheRefusedPartLost) if refused => self.lines_before,
            Some(PartFault::RefusedLineCounted) if refused => right + 1,
            Some(PartFault::LinesBehindTheRefusalCounted) if refused => {
                (self.came / LINE_BYTES) as u64
            }
            Some(PartFault::UnfinishedLineCounted) if !self.inner.ahead().is_empty() => right + 1,
            Some(PartFault::LinesForgottenAtTheEnd) if over => 0,
            Some(PartFault::LinesForgottenAtARefusedEnd) if is_of_an_end(number) => 0,
            _ => right,
        }
    }
}

fn is_part(call: PartCall) -> bool {
    matches!(call, PartCall::Part(_))
}

fn is_empty(call: PartCall) -> bool {
    matches!(call, PartCall::Part([]))
}

/// Whether a refusal with this number comes from a declared end.
fn is_of_an_end(number: u32) -> bool {
    [WRONG_LENGTH, NO_END].contains(&number)
}

fn number_of(verdict: Verdict) -> u32 {
    match verdict {
        Verdict::Refused { number, .. } => number,
        Verdict::Accepted => 0,
    }
}
