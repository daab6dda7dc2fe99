//! Looks for the requests that show seeded faults: with a fault, the second
//! program expects another reply than the right one that came.

use std::io;

use crate::asking::conversation::Conversation;
use crate::asking::probe::Request;
use crate::asking::replies::Reply;
use crate::cases::streams::{self, Stream};
use crate::comparing::compare;
use crate::comparing::difference::Difference;
use crate::comparing::expected::expected_answer;
use crate::sown::answers::mistaken_answer;
use crate::sown::faults::{faults_about, Fault, Topic, TOPICS};

/// Every fault there is, each in the requests about its topic.
pub fn catch_all(command: &[String]) -> Result<(), String> {
    let mut caught = 0;
    for topic in TOPICS {
        let faults = faults_about(topic);
        caught += faults.len();
        catch(command, topic, faults)?;
    }
    println!("second: {caught} faults caught");
    Ok(())
}

pub fn catch_one(command: &[String], wanted: &str) -> Result<(), String> {
    for topic in TOPICS {
        let mut faults = faults_about(topic);
        faults.retain(|(name, _)| name == wanted);
        if !faults.is_empty() {
            return catch(command, topic, faults);
        }
    }
    Err(format!("no fault is named {wanted}"))
}

pub fn names() -> Vec<String> {
    let faults = TOPICS.into_iter().flat_map(faults_about);
    faults.map(|(name, _)| name).collect()
}

fn catch(command: &[String], topic: Topic, faults: Vec<(String, Fault)>) -> Result<(), String> {
    let mut hunt = Hunt {
        requests: 0,
        faults,
    };
    let streams: Box<dyn Iterator<Item = Stream>> = match topic {
        Topic::StringsAndRecords => Box::new(streams::string_streams()),
        Topic::Files => Box::new(streams::file_streams()),
        Topic::Parts => Box::new(streams::part_streams()),
        Topic::Writer => Box::new(streams::writer_streams()),
    };
    for stream in streams {
        if hunt.faults.is_empty() {
            return Ok(());
        }
        let wrong = hunt.go_through(command, &stream);
        let wrong = wrong.map_err(|error| format!("cannot talk to {}: {error}", command[0]))?;
        if let Some(difference) = wrong {
            return Err(format!(
                "the program differs from document 01 itself: {difference}"
            ));
        }
    }
    if hunt.faults.is_empty() {
        return Ok(());
    }
    let names = hunt.faults.iter().map(|(name, _)| name.as_str());
    let names: Vec<&str> = names.collect();
    Err(format!("faults that were not caught: {}", names.join(", ")))
}

/// The faults that no request has shown so far.
struct Hunt {
    requests: usize,
    faults: Vec<(String, Fault)>,
}

impl Hunt {
    /// Ends early once all faults are caught. A fault is caught only by a reply
    /// that is right by document 01; any other says nothing about the fault.
    fn go_through(
        &mut self,
        command: &[String],
        stream: &Stream,
    ) -> io::Result<Option<Difference>> {
        let mut conversation = Conversation::start(command, compare::bytes_of(stream))?;
        for request in &stream.requests {
            if self.faults.is_empty() {
                break;
            }
            self.requests += 1;
            let came = conversation.next_reply(request)?;
            let expected = expected_answer(request).reply_beside(&came);
            if came != expected {
                let (number, request) = (self.requests, request.clone());
                return Ok(Some(Difference::Reply {
                    number,
                    request,
                    expected,
                    came,
                }));
            }
            self.drop_caught(request, &came);
        }
        Ok(None)
    }

    fn drop_caught(&mut self, request: &Request, came: &Reply) {
        let number = self.requests;
        self.faults.retain(|(name, fault)| {
            let caught = fault.is_about(request)
                && mistaken_answer(request, *fault).reply_beside(came) != *came;
            if caught {
                println!("fault {name} caught at request {number}");
            }
            !caught
        });
    }
}
