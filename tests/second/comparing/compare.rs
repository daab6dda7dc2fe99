//! Compares the program under test with document 01, reply by reply, and
//! stops at the first difference.

use std::io;

use crate::asking::conversation::Conversation;
use crate::cases::streams::Stream;
use crate::checking::tally::Tally;
use crate::comparing::difference::Difference;
use crate::comparing::expected::expected_answer;

/// The first difference over all streams, if there is one.
pub fn first_difference(
    command: &[String],
    streams: impl Iterator<Item = Stream>,
    tally: &mut Tally,
) -> io::Result<Option<Difference>> {
    for stream in streams {
        let difference = difference_in(command, &stream, tally)?;
        if difference.is_some() {
            return Ok(difference);
        }
    }
    Ok(None)
}

fn difference_in(
    command: &[String],
    stream: &Stream,
    tally: &mut Tally,
) -> io::Result<Option<Difference>> {
    let mut conversation = Conversation::start(command, bytes_of(stream))?;
    for request in &stream.requests {
        let answer = expected_answer(request);
        let came = conversation.next_reply(request)?;
        let expected = answer.reply_beside(&came);
        tally.count(request, &answer);
        if came != expected {
            let (number, request) = (tally.requests(), request.clone());
            return Ok(Some(Difference::Reply {
                number,
                request,
                expected,
                came,
            }));
        }
    }
    let came = conversation.remainder()?;
    let cut_request = stream.cut_request.clone();
    Ok((!came.is_empty()).then_some(Difference::Surplus { cut_request, came }))
}

pub fn bytes_of(stream: &Stream) -> Vec<u8> {
    let mut bytes = Vec::new();
    for request in &stream.requests {
        request.append_to(&mut bytes);
    }
    bytes.extend_from_slice(&stream.cut_request);
    bytes
}
