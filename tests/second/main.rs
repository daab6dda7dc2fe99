//! The second program: written from document 01 and requests 1, 2, 3, 5, 7 and
//! 13 of document 02, without sight of the payment desk's code, it asks the desk's
//! probe many questions and compares every reply with its own answer. It also
//! changes files at their guarded places, feeds large files to the desk's
//! program, and makes plain files. Everywhere here document 01 is meant with
//! those requests in it.
//!
//! The folders, each by its role:
//!
//! - `paper`: the papers read again, to be laid beside document 01
//! - `asking`: requests and replies as they travel, and the conversation
//! - `making`: generators of good input
//! - `damage`: what is spoiled on purpose
//! - `cases`: the requests of a run, made of the two
//! - `comparing`: what the papers demand beside what the program says
//! - `sown`: mistakes put into the rules of the papers, one at a time
//! - `checking`: tests of the tests
//!
//! Build: `rustc -O --edition 2021 main.rs -o second`

mod asking;
mod cases;
mod checking;
mod comparing;
mod damage;
mod making;
mod paper;
mod sown;

use std::env;
use std::io::{self, BufWriter};
use std::process::ExitCode;

use checking::{fault_hunt, stand_in};
use comparing::{agreement, guarded, limits};
use making::plain_files;

const USAGE: &str = "usage: second PROGRAM [ARGS..]
       second --fault NAME PROGRAM [ARGS..]
       second --faults PROGRAM [ARGS..]
       second --faults
       second --guarded PROGRAM [ARGS..]
       second --limits PROGRAM [ARGS..]
       second --stand-in
       second --file NAME
       second --files";

fn main() -> ExitCode {
    let arguments: Vec<String> = env::args().skip(1).collect();
    match run(&arguments) {
        Ok(()) => ExitCode::SUCCESS,
        Err(message) => {
            eprintln!("{message}");
            ExitCode::FAILURE
        }
    }
}

fn run(arguments: &[String]) -> Result<(), String> {
    match arguments.first().map(String::as_str) {
        Some("--faults") if arguments.len() == 1 => {
            println!("{}", fault_hunt::names().join("\n"));
            Ok(())
        }
        Some("--faults") => fault_hunt::catch_all(&arguments[1..]),
        Some("--fault") if arguments.len() > 2 => {
            fault_hunt::catch_one(&arguments[2..], &arguments[1])
        }
        Some("--guarded") if arguments.len() > 1 => guarded::check(&arguments[1..]),
        Some("--limits") if arguments.len() > 1 => limits::check(&arguments[1..]),
        Some("--stand-in") if arguments.len() == 1 => {
            let mut replies = BufWriter::new(io::stdout());
            stand_in::answer_all(&mut io::stdin().lock(), &mut replies)
                .map_err(|error| format!("cannot answer: {error}"))
        }
        Some("--file") if arguments.len() > 1 => {
            plain_files::write(&mut BufWriter::new(io::stdout()), &arguments[1..])
        }
        Some("--files") if arguments.len() == 1 => {
            println!("{}", plain_files::NAMES.join("\n"));
            Ok(())
        }
        Some(program) if !program.starts_with("--") => agreement::check(arguments),
        _ => Err(USAGE.to_string()),
    }
}
