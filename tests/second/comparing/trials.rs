//! Trials of an accepted request: it is asked once as it is, and then again and
//! again with one byte changed.

use std::fmt;
use std::io;
use std::str;

use crate::asking::conversation::Conversation;
use crate::asking::probe::Request;
use crate::asking::replies::{Reply, MALFORMED};
use crate::comparing::expected::expected_answer;
use crate::damage::changes::{Change, Demand, Trials};
use crate::paper::answers::ACCEPTED;
use crate::paper::lines::LINE_BYTES;

const REFUSED: &str = "NO";

impl Change {
    fn index(&self) -> usize {
        self.line.saturating_sub(1) * LINE_BYTES + self.place - 1
    }

    /// The lines before the changed one are good, so a refusal names none of
    /// them. An acceptance is the one of the unchanged request, or else that of
    /// the changed one, and not both.
    fn is_answered(&self, came: &Reply, unchanged: &Request, accepted: &Reply) -> bool {
        match self.demand {
            Demand::Refusal => refused_line(&came.lines).is_some_and(|line| line >= self.line),
            Demand::Acceptance => came.lines == accepted.lines,
            Demand::OtherTotals => came != accepted && is_accepted(&self.made_in(unchanged), came),
        }
    }

    fn made_in(&self, request: &Request) -> Request {
        let mut changed = request.clone();
        changed.payload[self.index()] = self.byte;
        changed
    }
}

/// The line that a refusal names; the answer to a malformed request is none.
fn refused_line(reply: &[u8]) -> Option<usize> {
    let text = str::from_utf8(reply).ok()?.strip_suffix('\n')?;
    let words: Vec<&str> = text.split(' ').collect();
    match words.as_slice() {
        [REFUSED, number, line, _place] => {
            let number: u32 = number.parse().ok()?;
            line.parse().ok().filter(|_| number != MALFORMED)
        }
        _ => None,
    }
}

impl Trials {
    fn append_to(&self, stream: &mut Vec<u8>) {
        self.accepted.append_to(stream);
        for change in &self.changes {
            self.accepted.append_to(stream);
            let payload = stream.len() - self.accepted.payload.len();
            stream[payload + change.index()] = change.byte;
        }
    }

    fn failure_in(&self, conversation: &mut Conversation) -> io::Result<Option<Failure>> {
        let accepted = conversation.next_reply(&self.accepted)?;
        if !is_accepted(&self.accepted, &accepted) {
            return Ok(Some(self.failure(None, accepted.lines)));
        }
        for change in &self.changes {
            // All requests have one header, and that tells how long a reply is.
            let came = conversation.next_reply(&self.accepted)?;
            if !change.is_answered(&came, &self.accepted, &accepted) {
                return Ok(Some(self.failure(Some(*change), came.lines)));
            }
        }
        Ok(None)
    }

    fn failure(&self, change: Option<Change>, came: Vec<u8>) -> Failure {
        let name = self.name.clone();
        Failure::Reply { name, change, came }
    }
}

/// As document 01 demands it, totals and all.
fn is_accepted(request: &Request, reply: &Reply) -> bool {
    let demanded = expected_answer(request).as_reply();
    reply.lines.starts_with(ACCEPTED.as_bytes()) && *reply == demanded
}

/// All in one conversation with the program.
pub fn first_failure(command: &[String], all: &[Trials]) -> Result<Option<Failure>, String> {
    let failure = failure_in_conversation(command, all);
    failure.map_err(|error| format!("cannot talk to {}: {error}", command[0]))
}

fn failure_in_conversation(command: &[String], all: &[Trials]) -> io::Result<Option<Failure>> {
    let mut stream = Vec::new();
    for trials in all {
        trials.append_to(&mut stream);
    }
    let mut conversation = Conversation::start(command, stream)?;
    for trials in all {
        let failure = trials.failure_in(&mut conversation)?;
        if failure.is_some() {
            return Ok(failure);
        }
    }
    let came = conversation.remainder()?;
    Ok((!came.is_empty()).then_some(Failure::Surplus { came }))
}

pub enum Failure {
    /// To the request as it is, or with a change.
    Reply {
        name: String,
        change: Option<Change>,
        came: Vec<u8>,
    },
    /// Bytes came behind the last reply.
    Surplus { came: Vec<u8> },
}

impl Failure {
    pub fn is_at(&self, line: usize, place: usize) -> bool {
        match self {
            Failure::Reply {
                change: Some(change),
                ..
            } => change.line == line && change.place == place,
            _ => false,
        }
    }
}

impl fmt::Display for Failure {
    fn fmt(&self, out: &mut fmt::Formatter) -> fmt::Result {
        let (name, change, came) = match self {
            Failure::Reply { name, change, came } => (name, change, came.escape_ascii()),
            Failure::Surplus { came } => {
                return write!(
                    out,
                    "\"{}\" came behind the last reply",
                    came.escape_ascii()
                );
            }
        };
        let demanded = match change {
            None => "the unchanged request is not accepted as it should be",
            Some(change) => {
                let (line, place, byte) = (change.line, change.place, change.byte);
                let shown = byte.escape_ascii();
                write!(out, "line {line}, place {place}, byte {byte} ({shown}): ")?;
                match change.demand {
                    Demand::Refusal => "a refusal is demanded",
                    Demand::Acceptance => "the same acceptance is demanded",
                    Demand::OtherTotals => "an acceptance with other totals is demanded",
                }
            }
        };
        write!(out, "{demanded}, and \"{came}\" came, in {name}")
    }
}
