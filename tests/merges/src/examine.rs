//! Every list alone, then merges of all lists: what each user gets, and what is left.

use crate::command::Command;
use crate::group::Group;
use crate::merge::merge;
use crate::program::run;
use crate::random::Random;

/// Two lines that should be the same.
pub struct Difference {
    pub place: String,
    pub wanted: String,
    pub got: String,
}

#[derive(Default)]
pub struct Findings {
    pub compared: usize,
    pub differences: Vec<Difference>,
    /// The lines of the users' own lists, each list alone.
    pub alone: Vec<String>,
}

/// A run of the group with these commands between preamble and closing: the lines of both parts.
fn lines(path: &str, group: &Group, between: &[&Command]) -> Result<Vec<(Option<usize>, String)>, String> {
    let before = group.preamble.len();
    let commands = group.preamble.iter().chain(between.iter().copied()).chain(&group.closing);
    let commands: Vec<&Command> = commands.collect();
    let lines = run(path, &commands).map_err(|fault| format!("group seed {}: {fault}", group.seed))?;
    Ok(commands.iter().map(|command| command.owner).zip(lines).skip(before).collect())
}

/// The lines of one user.
fn of(lines: &[(Option<usize>, String)], owner: usize) -> Vec<String> {
    lines.iter().filter(|line| line.0 == Some(owner)).map(|line| line.1.clone()).collect()
}

impl Findings {
    fn compare(&mut self, place: &str, wanted: &[String], got: &[String]) {
        assert_eq!(wanted.len(), got.len(), "{place}: as many lines on both sides");
        self.compared += wanted.len();
        for (number, (wanted, got)) in wanted.iter().zip(got).enumerate() {
            if wanted != got {
                let place = format!("{place}, line {}", number + 1);
                self.differences.push(Difference { place, wanted: wanted.clone(), got: got.clone() });
            }
        }
    }
}

/// Runs each list alone and so many merges, and compares.
pub fn examine(path: &str, group: &Group, merges: usize) -> Result<Findings, String> {
    let mut findings = Findings::default();
    let mut alone = Vec::new();
    for (owner, list) in group.lists.iter().enumerate() {
        let lines = lines(path, group, &list.iter().collect::<Vec<_>>())?;
        findings.alone.extend(lines.iter().take(list.len()).map(|line| line.1.clone()));
        alone.push(of(&lines, owner));
    }
    let mut random = Random::new(!group.seed);
    let mut first_closing: Option<Vec<String>> = None;
    for number in 1..=merges {
        let merged = merge(&mut random, &group.lists);
        let lines = lines(path, group, &merged)?;
        let name = format!("group seed {}, merge {number}", group.seed);
        for (owner, alone) in alone.iter().enumerate() {
            let place = format!("{name}, user {:08X} beside his list alone", group.identifiers[owner]);
            findings.compare(&place, alone, &of(&lines, owner));
        }
        let closing: Vec<String> = lines.into_iter().skip(merged.len()).map(|line| line.1).collect();
        let place = format!("{name}, closing beside that of merge 1");
        findings.compare(&place, first_closing.get_or_insert(closing.clone()), &closing);
    }
    Ok(findings)
}
