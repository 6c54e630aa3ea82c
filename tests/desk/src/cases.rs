//! Lines with their columns marked by hand: `cases.txt`.

use crate::batch::Batch;
use crate::desk::Outcome;

const CASES: &str = include_str!("../cases.txt");

/// A line, and below it, where it is wrong, a `^` under the column and what was expected there.
struct Case<'a> {
    line: &'a str,
    wrong: Option<(usize, &'a str)>,
}

fn cases() -> Vec<Case<'static>> {
    let mut cases: Vec<Case> = Vec::new();
    for line in CASES.lines() {
        match (line.trim_start().strip_prefix("^ "), cases.last_mut()) {
            (Some(expected), Some(case)) => case.wrong = Some((line.len() - expected.len() - 1, expected)),
            _ => cases.push(Case { line, wrong: None }),
        }
    }
    cases
}

/// The lines as one batch; what the model answers is printed where it is not what the file has.
pub fn batch() -> (Batch, bool) {
    let mut batch = Batch::new("cases.txt".to_string());
    let mut agree = true;
    for case in cases() {
        batch.add(case.line.as_bytes().to_vec());
        let Some(line) = batch.lines.last() else {
            continue;
        };
        let number = batch.lines.len();
        let wanted = case
            .wrong
            .map(|(column, expected)| format!("line {number}, column {column}: expected {expected}\n"));
        let is_bad = matches!(line.outcome, Outcome::Bad(_));
        if is_bad != wanted.is_some() || wanted.is_some_and(|wanted| wanted != line.answer) {
            println!("cases.txt: the model answers {:?} to {}", line.answer, case.line);
            agree = false;
        }
    }
    (batch, agree)
}
