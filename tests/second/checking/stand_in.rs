//! Answers requests as document 01 demands, in the place of the program under
//! test: the comparison can then be tried where that program is not at hand.

use std::io::{self, ErrorKind, Read, Write};

use crate::asking::probe::{self, Request, HEADER_BYTES};
use crate::comparing::expected::expected_answer;

/// Until the requests end; one that is cut short is not answered.
pub fn answer_all(requests: &mut dyn Read, replies: &mut dyn Write) -> io::Result<()> {
    while let Some(request) = next_request(requests)? {
        let reply = expected_answer(&request).as_reply();
        replies.write_all(&reply.lines)?;
        replies.write_all(&reply.memory)?;
    }
    replies.flush()
}

fn next_request(requests: &mut dyn Read) -> io::Result<Option<Request>> {
    let mut header = [0; HEADER_BYTES];
    if !is_filled(requests, &mut header)? {
        return Ok(None);
    }
    let mut payload = vec![0; probe::announced_length(&header)];
    let whole = is_filled(requests, &mut payload)?;
    Ok(whole.then_some(Request { header, payload }))
}

fn is_filled(requests: &mut dyn Read, part: &mut [u8]) -> io::Result<bool> {
    match requests.read_exact(part) {
        Ok(()) => Ok(true),
        Err(error) if error.kind() == ErrorKind::UnexpectedEof => Ok(false),
        Err(error) => Err(error),
    }
}
