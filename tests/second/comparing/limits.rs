//! Feeds files to the desk's program, which reads its standard input and prints
//! one line. Files are written as they are made, since the largest of them does
//! not fit into memory.

use std::io::{self, Read, Write};
use std::process::{Child, ChildStdin, ChildStdout, Command, Stdio};
use std::sync::mpsc::{self, Receiver};
use std::thread;
use std::time::{Duration, Instant};

use crate::cases::limit_cases::{self, Case, Pace};
use crate::checking::limit_hunt;
use crate::paper::file_reader::FileReader;

/// A program that has not answered by then has failed.
const PATIENCE: Duration = Duration::from_secs(120);
/// Long enough for a program that waits for its input to be given each bit.
const PAUSE: Duration = Duration::from_micros(20);
const ORDINARY_WRITE: usize = 65_536;
/// No answer comes near this; it keeps a runaway one from filling memory.
const LONGEST_ANSWER: u64 = 400;

pub fn check(command: &[String]) -> Result<(), String> {
    let cases = limit_cases::all();
    for case in &cases {
        let name = case.name;
        check_case(command, case).map_err(|message| format!("{name}: {message}"))?;
        println!("{name}: {}", case.demanded);
    }
    println!("second: {} files agree", cases.len());
    limit_hunt::catch_all()
}

/// The paper's own answer, the second program's and the program's are one.
fn check_case(command: &[String], case: &Case) -> Result<(), String> {
    let run = Run::start(command, case).map_err(|error| format!("cannot start: {error}"))?;
    let own = within_patience(&run.own, run.begun)?;
    let came = within_patience(&run.came, run.begun)?;
    if own != case.demanded {
        return Err(format!(
            "the second program says {own} and not {}",
            case.demanded
        ));
    }
    let demanded = format!("{}\n", case.demanded);
    if came != demanded.as_bytes() {
        let came = came.escape_ascii();
        return Err(format!("\"{came}\" came and not {}", case.demanded));
    }
    Ok(())
}

fn within_patience<T>(receiver: &Receiver<T>, begun: Instant) -> Result<T, String> {
    let left = PATIENCE.saturating_sub(begun.elapsed());
    let received = receiver.recv_timeout(left);
    received.map_err(|_| format!("no answer within {} seconds", PATIENCE.as_secs()))
}

struct Run {
    child: Child,
    begun: Instant,
    /// What the second program says of the file.
    own: Receiver<String>,
    came: Receiver<Vec<u8>>,
}

impl Run {
    fn start(command: &[String], case: &Case) -> io::Result<Run> {
        let mut child = Command::new(&command[0])
            .args(&command[1..])
            .stdin(Stdio::piped())
            .stdout(Stdio::piped())
            .spawn()?;
        let missing = || io::Error::from(io::ErrorKind::BrokenPipe);
        let input = child.stdin.take().ok_or_else(missing)?;
        let output = child.stdout.take().ok_or_else(missing)?;
        let (write, pace) = (case.write, case.pace);
        Ok(Run {
            child,
            begun: Instant::now(),
            own: in_a_thread(move || feed(input, write, pace)),
            came: in_a_thread(move || answer(output)),
        })
    }
}

impl Drop for Run {
    /// The program has answered, or its time is over.
    fn drop(&mut self) {
        let _ = self.child.kill();
        let _ = self.child.wait();
    }
}

/// Both ends of the program are served at once, or both sides could wait on
/// full pipes.
fn in_a_thread<T: Send + 'static>(work: impl FnOnce() -> T + Send + 'static) -> Receiver<T> {
    let (sender, receiver) = mpsc::channel();
    thread::spawn(move || {
        // Nobody waits any more once the patience is over.
        let _ = sender.send(work());
    });
    receiver
}

fn answer(output: ChildStdout) -> Vec<u8> {
    let mut bytes = Vec::new();
    // What came before an error is compared, and falls short.
    let _ = output.take(LONGEST_ANSWER).read_to_end(&mut bytes);
    bytes
}

fn feed(input: ChildStdin, write: limit_cases::Write, pace: Pace) -> String {
    let mut feed = Feed {
        input: Some(input),
        pace,
        waiting: Vec::new(),
        own: FileReader::at_start(),
    };
    // A feed takes everything, whatever becomes of the program.
    let _ = write(&mut feed);
    feed.give_the_rest();
    feed.own.end().to_string()
}

/// What is written goes to the program and to the second program's own reader.
struct Feed {
    /// Nothing any more once the program has stopped reading.
    input: Option<ChildStdin>,
    pace: Pace,
    waiting: Vec<u8>,
    own: FileReader,
}

impl Feed {
    fn bit(&self) -> usize {
        match self.pace {
            Pace::Ordinary => ORDINARY_WRITE,
            Pace::InBits(bytes) => bytes,
        }
    }

    fn give(&mut self, bytes: usize) {
        let given: Vec<u8> = self.waiting.drain(..bytes).collect();
        let taken = match &mut self.input {
            Some(input) => input.write_all(&given).and_then(|()| input.flush()),
            None => return,
        };
        if taken.is_err() {
            self.input = None;
        }
        if self.pace != Pace::Ordinary {
            thread::sleep(PAUSE);
        }
    }

    fn give_the_rest(&mut self) {
        self.give(self.waiting.len());
        self.input = None;
    }
}

impl Write for Feed {
    fn write(&mut self, bytes: &[u8]) -> io::Result<usize> {
        self.own.feed(bytes);
        self.waiting.extend_from_slice(bytes);
        while self.waiting.len() >= self.bit() {
            self.give(self.bit());
        }
        Ok(bytes.len())
    }

    fn flush(&mut self) -> io::Result<()> {
        Ok(())
    }
}
