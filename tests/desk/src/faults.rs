//! `faults`: the model with a fault in the part of desk and scribe; each fault has to be told.

use crate::fault;
use std::env::current_exe;
use std::io::Result;
use std::process::Command;

/// One of the tests with the model in all parts, and the fault of the number in that of desk and scribe: whether it passed.
fn passes(test: &str, number: usize) -> Result<bool> {
    let ours = current_exe()?.display().to_string();
    let desk = format!("{ours} model --fault {number}");
    let scribe = format!("{desk} --scribe");
    let notary = format!("{ours} model --notary");
    let mut command = Command::new(&ours);
    match test {
        "lines" => command.args(["lines", &desk, &scribe, "--lines", "6000", "--every", "30", "--first"]),
        "terminal" => command.args(["terminal", &desk]),
        _ => command.args(["round", &scribe, &notary, &desk, "--commands", "2000"]),
    };
    Ok(command.output()?.status.success())
}

/// Each fault is told by `lines` or `round`, or where these do not see it by `terminal`; with none, all pass.
pub fn faults() -> Result<bool> {
    let mut untold = 0;
    for number in 0..=fault::ALL.len() {
        let name =
            number.checked_sub(1).map_or("no fault".to_string(), |index| format!("{:?}", fault::ALL[index]));
        let mut told_by = Vec::new();
        for test in ["lines", "round", "terminal"] {
            let needed = test != "terminal" || told_by.is_empty();
            if needed && !passes(test, number)? {
                told_by.push(test);
            }
        }
        println!("{number:2} {name}: told by {told_by:?}");
        untold += usize::from(told_by.is_empty() != (number == 0));
    }
    println!("faults: {} faults, {untold} not as it should be", fault::ALL.len());
    Ok(untold == 0)
}
