//! Mistakes about the lines of a file together: in what the checker knows after
//! a line, in the lines its refusals name, and in how a file is cut into lines.

use super::faults::Fault;
use super::totals::Miscount;
use super::Sown;
use crate::paper::answers::{AnswerLine, Verdict};
use crate::paper::file_state::{Last, Stage};
use crate::paper::line_checker::LineChecker;
use crate::paper::line_rules::LineRules;
use crate::paper::lines::LINE_BYTES;
use crate::paper::numbers::{BEHIND_THE_END, BLANK_BEFORE_TEXT, NON_DIGIT, NO_DATE_OR_TIME};
use crate::paper::numbers::{OUTSIDE_DOMAIN, WRONG_AMOUNT, WRONG_CENTS, WRONG_CHECK};
use crate::paper::numbers::{WRONG_DUE_DATE, WRONG_FIXED_CONTENT, WRONG_LENGTH};
use crate::paper::places;
use crate::paper::record_kinds::RecordKind;
use crate::paper::totals::Movement;

/// The numbers of a line that is in its turn and has a wrong field.
const FIELD_NUMBERS: [u32; 5] = [
    NON_DIGIT,
    WRONG_FIXED_CONTENT,
    BLANK_BEFORE_TEXT,
    OUTSIDE_DOMAIN,
    NO_DATE_OR_TIME,
];
/// The numbers of a boleto whose fields are right each for itself.
const BOLETO_NUMBERS: [u32; 4] = [WRONG_CHECK, WRONG_DUE_DATE, WRONG_CENTS, WRONG_AMOUNT];

impl Sown {
    pub fn file_line(self, bytes: &[u8]) -> AnswerLine {
        let mut checker = SownChecker::with(self);
        let mut begun = Vec::new();
        for byte in bytes {
            if self.has(Fault::NotLookedAtBehindTheEnd) && checker.inner.state.has_ended() {
                break;
            }
            begun.push(*byte);
            let cut = self.has(Fault::LinesCutAtLineFeeds) && *byte == b'\n';
            if begun.len() == LINE_BYTES || cut {
                let verdict = checker.line(&begun);
                if verdict != Verdict::Accepted {
                    return AnswerLine::plain(verdict);
                }
                begun.clear();
            }
        }
        let line = checker.end(begun.len());
        self.with_old_numbers(Fault::OldNumbersOfAWholeFile, line)
    }

    pub fn call_lines(self, calls: &[&[u8]]) -> Vec<AnswerLine> {
        let mut checker = SownChecker::with(self);
        let verdicts = calls.iter().map(|call| checker.line(call));
        let mut lines: Vec<AnswerLine> = verdicts.map(AnswerLine::plain).collect();
        lines.push(self.with_old_numbers(Fault::OldNumbersAtADeclaredEnd, checker.end(0)));
        lines
    }

    /// With this fault, the numbers that document 01 had before request 13.
    pub fn with_old_numbers(self, fault: Fault, mut line: AnswerLine) -> AnswerLine {
        if let (true, [batches, records, live @ .., payments, cents]) =
            (self.has(fault), line.numbers.as_slice())
        {
            let both = live.iter().zip([payments, cents]);
            let both = both.map(|(live, withdrawn)| live + withdrawn);
            line.numbers = [*batches, *records].into_iter().chain(both).collect();
        }
        line
    }
}

/// The paper's checker, with what a fault does before and behind its calls.
struct SownChecker {
    sown: Sown,
    inner: LineChecker<Sown>,
    calls: u64,
    last_refusal: Option<Verdict>,
    /// The lines accepted so far, and how many withdrawn payments were not: kept
    /// only for a fault in the totals.
    accepted: Vec<u8>,
    refused_withdrawn: u64,
}

impl SownChecker {
    fn with(sown: Sown) -> SownChecker {
        SownChecker {
            sown,
            inner: LineChecker::by(sown),
            calls: 0,
            last_refusal: None,
            accepted: Vec::new(),
            refused_withdrawn: 0,
        }
    }

    fn line(&mut self, line: &[u8]) -> Verdict {
        if line.is_empty() && self.sown.has(Fault::EmptyCallTaken) {
            return Verdict::Accepted;
        }
        let kind = self.sown.kind_here(&self.inner.state, line);
        let right = self.inner.line(line);
        self.remember(kind, line, right);
        let let_pass = self.let_pass(line, right);
        let verdict = self.renamed(let_pass);
        self.calls += 1;
        match verdict {
            Verdict::Accepted => self.spoil_batch(),
            Verdict::Refused { number, .. } => {
                self.last_refusal = Some(verdict);
                let in_turn = FIELD_NUMBERS.contains(&number);
                if in_turn && self.sown.has(Fault::RefusedLineMovesTheState) {
                    self.inner.advance(line);
                }
            }
        }
        verdict
    }

    fn end(&self, begun: usize) -> AnswerLine {
        let kept = self.sown.has(Fault::RefusalKeptToTheEnd);
        if let Some(refusal) = self.last_refusal.filter(|_| kept) {
            return AnswerLine::plain(refusal);
        }
        let mut line = self.inner.end(begun);
        line.verdict = self.renamed(line.verdict);
        if let (Some(fault), Verdict::Accepted) = (self.sown.totals_fault(), line.verdict) {
            let miscount = Miscount::of(fault, &self.accepted, self.refused_withdrawn);
            line.numbers = miscount.numbers(&line.numbers);
        }
        if let Verdict::Refused { number, .. } = &mut line.verdict {
            if *number == BEHIND_THE_END && self.sown.has(Fault::LengthBeforeEnd) {
                *number = WRONG_LENGTH;
            }
        }
        line
    }

    fn remember(&mut self, kind: Option<RecordKind>, line: &[u8], verdict: Verdict) {
        if self.sown.totals_fault().is_none() {
            return;
        }
        if verdict == Verdict::Accepted {
            self.accepted.extend_from_slice(line);
        } else if kind.and_then(places::amount).is_some() {
            let withdrawn = Movement::of(line) == Movement::Withdrawn;
            self.refused_withdrawn += u64::from(withdrawn);
        }
    }

    /// A boleto that is refused for its barcode or its amount, and is withdrawn.
    fn let_pass(&mut self, line: &[u8], verdict: Verdict) -> Verdict {
        match verdict {
            Verdict::Refused { number, .. }
                if self.sown.has(Fault::WithdrawnBoletosNotTested)
                    && BOLETO_NUMBERS.contains(&number)
                    && Movement::of(line) == Movement::Withdrawn =>
            {
                self.inner.advance(line);
                self.inner.state.accepted_lines += 1;
                Verdict::Accepted
            }
            _ => verdict,
        }
    }

    /// The line that a refusal names.
    fn renamed(&self, mut verdict: Verdict) -> Verdict {
        if let Verdict::Refused { line, .. } = &mut verdict {
            if self.sown.has(Fault::LinesCountedByCalls) {
                *line = self.calls + 1;
            }
        }
        verdict
    }

    /// What the batch knows after a line of it was accepted.
    fn spoil_batch(&mut self) {
        if let Stage::InBatch(batch) = &mut self.inner.state.stage {
            let is_z = batch.last == Last::Z && self.sown.has(Fault::ZCountedAsPayment);
            batch.totals.live.payments += u64::from(is_z);
        }
    }
}
