//! The conversation with the running program: all requests of a stream go in,
//! and the replies are read one by one.

use std::io::{self, BufRead, BufReader, Read, Write};
use std::process::{Child, ChildStdout, Command, Stdio};
use std::thread::{self, JoinHandle};

use crate::asking::probe::{Call, Request};
use crate::asking::replies::Reply;
use crate::asking::writer_script::Step;
use crate::paper::answers::{Answer, ACCEPTED};
use crate::paper::lines::RECORD_BYTES;

/// No reply line comes near this; it keeps a runaway reply from filling memory.
const LONGEST_REPLY_LINE: u64 = 400;

/// What a reply still has behind what was read of it: so many lines, and then,
/// perhaps, so many bytes and a line feed.
struct Rest {
    lines: usize,
    memory: Option<usize>,
}

impl Rest {
    const NOTHING: Rest = Rest::lines(0);

    const fn lines(lines: usize) -> Rest {
        let memory = None;
        Rest { lines, memory }
    }

    fn memory(bytes: usize) -> Rest {
        let memory = Some(bytes);
        Rest { lines: 0, memory }
    }
}

/// Only a script without a call has a reply that is memory alone.
fn has_lines(request: &Request) -> bool {
    match request.call() {
        Some(Call::WriteFile { .. }) => request.script().map_or(true, |s| calls_in(&s) > 0),
        _ => true,
    }
}

fn calls_in(script: &[Step]) -> usize {
    let steps = script.iter();
    steps.filter(|step| matches!(step, Step::Call(_))).count()
}

/// The malformed reply has nothing behind it: what follows is the next reply.
fn rest_behind(first_line: &[u8], request: &Request) -> Rest {
    let malformed = first_line == Answer::malformed().as_reply().lines;
    let call = match request.call() {
        Some(call) if !malformed => call,
        _ => return Rest::NOTHING,
    };
    match call {
        Call::BarcodeToLine { room }
        | Call::LineToBarcode { room }
        | Call::CodeToLine { room }
        | Call::CodeLineToCode { room }
        | Call::WriteRecord { room, .. } => Rest::memory(room),
        Call::ReadRecord { .. } if first_line.starts_with(ACCEPTED.as_bytes()) => {
            Rest::memory(RECORD_BYTES)
        }
        Call::ReadRecord { .. } | Call::CheckFile => Rest::NOTHING,
        // The end's line comes last, so there is one line more than calls.
        Call::CheckLines => Rest::lines(request.line_calls().map_or(0, |calls| calls.len())),
        // And here the line that says how many lines were accepted.
        Call::CheckParts => Rest::lines(request.part_calls().map_or(0, |calls| calls.len())),
        Call::WriteFile { room } => match request.script() {
            Ok(script) => Rest {
                lines: calls_in(&script).saturating_sub(1),
                memory: Some(room),
            },
            Err(_) => Rest::NOTHING,
        },
    }
}

pub struct Conversation {
    child: Child,
    writer: Option<JoinHandle<()>>,
    replies: BufReader<ChildStdout>,
}

impl Conversation {
    pub fn start(command: &[String], stream: Vec<u8>) -> io::Result<Conversation> {
        let mut child = Command::new(&command[0])
            .args(&command[1..])
            .stdin(Stdio::piped())
            .stdout(Stdio::piped())
            .spawn()?;
        let missing = || io::Error::from(io::ErrorKind::BrokenPipe);
        let mut requests = child.stdin.take().ok_or_else(missing)?;
        let replies = child.stdout.take().ok_or_else(missing)?;
        // A thread of its own: with one thread both sides could wait on full pipes.
        let writer = thread::spawn(move || {
            // A program that stops reading shows in its replies, not here.
            let _ = requests.write_all(&stream);
        });
        Ok(Conversation {
            child,
            writer: Some(writer),
            replies: BufReader::new(replies),
        })
    }

    /// Reads the reply to a request, be it malformed or not.
    pub fn next_reply(&mut self, request: &Request) -> io::Result<Reply> {
        let (mut lines, mut memory) = (Vec::new(), Vec::new());
        if has_lines(request) {
            self.read_line(&mut lines)?;
        }
        let rest = rest_behind(&lines, request);
        for _ in 0..rest.lines {
            self.read_line(&mut lines)?;
        }
        if let Some(bytes) = rest.memory {
            let with_line_feed = bytes as u64 + 1;
            let mut part = self.replies.by_ref().take(with_line_feed);
            part.read_to_end(&mut memory)?;
        }
        Ok(Reply { lines, memory })
    }

    fn read_line(&mut self, lines: &mut Vec<u8>) -> io::Result<()> {
        let mut part = self.replies.by_ref().take(LONGEST_REPLY_LINE);
        part.read_until(b'\n', lines).map(drop)
    }

    /// What the program still writes before it ends; nothing, if it is right.
    pub fn remainder(&mut self) -> io::Result<Vec<u8>> {
        let mut rest = Vec::new();
        self.replies
            .by_ref()
            .take(LONGEST_REPLY_LINE)
            .read_to_end(&mut rest)?;
        Ok(rest)
    }
}

impl Drop for Conversation {
    /// After a difference the program may still be waiting for its replies to
    /// be read; ending it also frees the writing thread.
    fn drop(&mut self) {
        let _ = self.child.kill();
        let _ = self.child.wait();
        if let Some(writer) = self.writer.take() {
            let _ = writer.join();
        }
    }
}
