//! Looks for the files at the limits that show faults about them, which are
//! longer than a request can be: with such a fault the second program itself
//! says something else of the file than is demanded of the program.

use crate::cases::limit_cases::{limits_of_both, Case};
use crate::comparing::expected::Answers;
use crate::sown::faults::{limit_faults, Fault};
use crate::sown::Sown;

pub fn catch_all() -> Result<(), String> {
    let cases = limits_of_both();
    let faults = limit_faults();
    for (name, fault) in &faults {
        let mut cases = cases.iter();
        let case = cases.find(|case| mistaken_answer(case, *fault) != case.demanded);
        let case = case.ok_or_else(|| format!("fault {name} was not caught"))?;
        println!("fault {name} caught by {}", case.name);
    }
    println!("second: {} faults caught", faults.len());
    Ok(())
}

fn mistaken_answer(case: &Case, fault: Fault) -> String {
    let mut file = Vec::new();
    // Writing into memory does not fail.
    let _ = (case.write)(&mut file);
    Sown::with(fault).check_file(&file).to_string()
}
