//! How a reply that differs from what document 01 demands is shown.

use std::fmt;

use crate::asking::probe::{Call, Request};
use crate::asking::replies::Reply;
use crate::asking::writer_script::Step;
use crate::paper::answers::FieldValue;
use crate::paper::lines::LINE_BYTES;
use crate::paper::parts::PartCall;
use crate::paper::writer_calls::WriterCall;

/// Longer payloads and memories are shown only in part.
const BYTES_SHOWN: usize = 760;
const LINES_SHOWN: usize = 80;
const STEPS_SHOWN: usize = 20;

pub enum Difference {
    /// A request, counted from 1 over all streams, was answered otherwise.
    Reply {
        number: usize,
        request: Request,
        expected: Reply,
        came: Reply,
    },
    /// Bytes came behind the last reply, where a stream ends.
    Surplus { cut_request: Vec<u8>, came: Vec<u8> },
}

impl fmt::Display for Difference {
    fn fmt(&self, out: &mut fmt::Formatter) -> fmt::Result {
        match self {
            Difference::Reply {
                number,
                request,
                expected,
                came,
            } => {
                writeln!(out, "request {number} is answered otherwise")?;
                show_request(out, request)?;
                writeln!(out, "  expected {}", shown_reply(expected))?;
                writeln!(out, "  came     {}", shown_reply(came))?;
                show_first_wrong_parts(out, expected, came)
            }
            Difference::Surplus { cut_request, came } => {
                writeln!(out, "bytes came behind the last reply")?;
                writeln!(out, "  cut request {}", shown(cut_request))?;
                writeln!(out, "  came        {}", shown(came))
            }
        }
    }
}

fn show_request(out: &mut fmt::Formatter, request: &Request) -> fmt::Result {
    if request.call().is_none() {
        writeln!(out, "  malformed")?;
    }
    writeln!(out, "  header   {}", shown(&request.header))?;
    match request.call() {
        Some(Call::CheckFile) => show_lines(out, request.payload.chunks(LINE_BYTES)),
        Some(Call::CheckLines) if request.line_calls().is_some() => {
            let calls = request.line_calls().unwrap_or_default();
            show_lines(out, calls.into_iter())
        }
        Some(Call::WriteFile { .. }) => show_script(out, request),
        Some(Call::CheckParts) => show_parts(out, request),
        _ => writeln!(out, "  payload  {}", shown(&request.payload)),
    }
}

/// Each step on a line of its own, and each record of a call.
fn show_script(out: &mut fmt::Formatter, request: &Request) -> fmt::Result {
    let script = match request.script() {
        Ok(script) => script,
        Err(misfit) => {
            writeln!(out, "  no script: {misfit:?}")?;
            return writeln!(out, "  payload  {}", shown(&request.payload));
        }
    };
    let left_out = script.len().saturating_sub(STEPS_SHOWN);
    if left_out > 0 {
        writeln!(out, "  {left_out} steps, and then")?;
    }
    for step in script.iter().skip(left_out) {
        match step {
            Step::Call(call) => show_call(out, call)?,
            Step::Lend(bytes) => writeln!(out, "  lend {bytes}")?,
            Step::Overwrite(byte) => writeln!(out, "  overwrite with {byte}")?,
        }
    }
    Ok(())
}

fn show_call(out: &mut fmt::Formatter, call: &WriterCall) -> fmt::Result {
    writeln!(out, "  call {}", char::from(call.kind.code()))?;
    for record in &call.records {
        let kind = char::from(record.kind.code());
        let numbers = record.values.numbers.iter();
        let numbers: Vec<String> = numbers
            .map(|number| FieldValue::of_number(*number).to_string())
            .collect();
        writeln!(out, "    {kind} {}", numbers.join(" "))?;
        writeln!(out, "      {}", shown(&record.values.text))?;
    }
    Ok(())
}

/// Each call on a line of its own.
fn show_parts(out: &mut fmt::Formatter, request: &Request) -> fmt::Result {
    let calls = match request.part_calls() {
        Ok(calls) => calls,
        Err(misfit) => {
            writeln!(out, "  no calls: {misfit:?}")?;
            return writeln!(out, "  payload  {}", shown(&request.payload));
        }
    };
    for (before, call) in calls.iter().take(LINES_SHOWN).enumerate() {
        let call = match call {
            PartCall::Part(bytes) => shown(bytes),
            PartCall::End => "the end".to_string(),
        };
        writeln!(out, "  {:>7}  {call}", before + 1)?;
    }
    let left_out = calls.len().saturating_sub(LINES_SHOWN);
    if left_out > 0 {
        writeln!(out, "  and {left_out} more calls")?;
    }
    Ok(())
}

/// The lines of a file, or the calls of a request, each on a line of its own.
fn show_lines<'a>(
    out: &mut fmt::Formatter,
    lines: impl ExactSizeIterator<Item = &'a [u8]>,
) -> fmt::Result {
    let left_out = lines.len().saturating_sub(LINES_SHOWN);
    for (before, line) in lines.take(LINES_SHOWN).enumerate() {
        writeln!(out, "  {:>7}  {}", before + 1, shown(line))?;
    }
    if left_out > 0 {
        writeln!(out, "  and {left_out} more lines")?;
    }
    Ok(())
}

/// Names the answer and the byte of the memory that are wrong, which may lie
/// behind the part shown.
fn show_first_wrong_parts(out: &mut fmt::Formatter, expected: &Reply, came: &Reply) -> fmt::Result {
    let (wanted, got) = (answers(expected), answers(came));
    let agreeing = wanted.iter().zip(&got).take_while(|(w, g)| w == g).count();
    if wanted.len() > 1 && wanted != got {
        let nothing: &[u8] = b"";
        let answer = agreeing + 1;
        let wanted = shown(wanted.get(agreeing).unwrap_or(&nothing));
        let got = shown(got.get(agreeing).unwrap_or(&nothing));
        writeln!(out, "  answer {answer} is {got} and not {wanted}")?;
    }
    let pairs = expected.memory.iter().zip(&came.memory);
    let agreeing = pairs.take_while(|(wanted, got)| wanted == got).count();
    if agreeing < expected.memory.len() && !came.memory.is_empty() {
        writeln!(out, "  the memory differs first at byte {}", agreeing + 1)?;
    }
    Ok(())
}

fn answers(reply: &Reply) -> Vec<&[u8]> {
    let with_line_feeds = reply.lines.split_inclusive(|byte| *byte == b'\n');
    with_line_feeds.collect()
}

fn shown_reply(reply: &Reply) -> String {
    format!("{} memory {}", shown(&reply.lines), shown(&reply.memory))
}

fn shown(bytes: &[u8]) -> String {
    if bytes.is_empty() {
        return "(nothing)".to_string();
    }
    let part = &bytes[..bytes.len().min(BYTES_SHOWN)];
    let more = if part.len() < bytes.len() { ".." } else { "" };
    format!("\"{}{more}\" ({} bytes)", part.escape_ascii(), bytes.len())
}
