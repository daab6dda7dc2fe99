//! A reply as it travels, and the reply that an answer of document 01 makes.

use crate::paper::answers::{Answer, Verdict};

/// The number of the reply to a malformed request; no row of document 01.
pub const MALFORMED: u32 = 0;
/// How the line begins that says how far a file in parts was accepted.
const REACHED: &str = "AT";

impl Answer {
    pub fn malformed() -> Answer {
        Answer::without_memory(Verdict::Refused {
            number: MALFORMED,
            line: 0,
            place: 0,
        })
    }

    /// The reply demanded, with what came at the places that may hold anything.
    pub fn reply_beside(&self, came: &Reply) -> Reply {
        let mut reply = self.as_reply();
        if reply.memory.len() == came.memory.len() {
            for part in &self.unbound {
                reply.memory[part.clone()].copy_from_slice(&came.memory[part.clone()]);
            }
        }
        reply
    }

    pub fn as_reply(&self) -> Reply {
        let lines = self.lines.iter().map(|line| format!("{line}\n"));
        let reached = self.accepted_lines.iter();
        let lines = lines.chain(reached.map(|lines| format!("{REACHED} {lines}\n")));
        let lines = lines.collect::<String>().into_bytes();
        let mut memory = Vec::new();
        if let Some(lent) = &self.memory {
            memory.extend_from_slice(lent);
            memory.push(b'\n');
        }
        Reply { lines, memory }
    }
}

/// A reply as its bytes travel, line feeds included, so that a missing one is
/// a difference like any other.
#[derive(PartialEq, Eq)]
pub struct Reply {
    pub lines: Vec<u8>,
    pub memory: Vec<u8>,
}
