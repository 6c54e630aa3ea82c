//! A script of a lesson at one desk, beside its transcript.

use crate::child::Program;
use crate::desk::{Desk, Outcome};
use std::fs;
use std::io::Result;
use std::path::Path;

const MOST_COMMANDS: usize = 30;

/// One desk of a lesson. Its files are `script` and `transcript`, its lines stand on the page after `> `; of several desks, `script-F` and
/// `transcript-F`, and after `F> `.
pub struct Sitting {
    pub prompt: String,
    /// Each line of the script, but for its comments, with its answer.
    pub answers: Vec<(String, Vec<String>)>,
    script: String,
    transcript: String,
    printed: String,
    ended_well: bool,
}

pub fn sittings(desk: &Program, path: &Path, writes: bool) -> Result<Vec<Sitting>> {
    let entries = fs::read_dir(path)?.map(|entry| Ok(entry?.file_name())).collect::<Result<Vec<_>>>()?;
    let mut marks: Vec<&str> =
        entries.iter().filter_map(|name| name.to_str()?.strip_prefix("script")).collect();
    marks.sort();
    marks.into_iter().map(|mark| Sitting::read(desk, path, mark, writes)).collect()
}

impl Sitting {
    /// Runs the script; where asked, the transcript is written anew.
    fn read(desk: &Program, path: &Path, mark: &str, writes: bool) -> Result<Sitting> {
        let script = fs::read_to_string(path.join(format!("script{mark}")))?;
        let output = desk.run(script.as_bytes())?;
        let file = path.join(format!("transcript{mark}"));
        if writes {
            fs::write(&file, &output.stdout)?;
        }
        let transcript = fs::read_to_string(file)?;
        let answers = answers(desk, &script)?;
        let printed = String::from_utf8_lossy(&output.stdout).to_string();
        let ended_well = output.status.success() && output.stderr.is_empty();
        let prompt = format!("{}> ", mark.trim_start_matches('-'));
        Ok(Sitting { prompt, answers, script, transcript, printed, ended_well })
    }

    pub fn faults(&self) -> Vec<String> {
        let mut faults = Vec::new();
        if !self.ended_well {
            faults.push("the desk ended badly".to_string());
        }
        if self.printed != self.transcript {
            faults.push(other_line(&self.transcript, &self.printed));
        }
        let commands = self.commands();
        if commands > MOST_COMMANDS {
            faults.push(format!("{commands} commands, more than {MOST_COMMANDS}"));
        }
        faults
    }

    /// Lines that are commands or raw bytes, well said or not.
    fn commands(&self) -> usize {
        let mut desk = Desk::fresh();
        let mut is_command =
            |line: &str| matches!(desk.take(line.as_bytes()).0, Outcome::Answered(_) | Outcome::Bad(_));
        self.script.lines().filter(|line| is_command(line)).count()
    }
}

/// A line's answer is what the desk says more, when it is given that line more.
fn answers(desk: &Program, script: &str) -> Result<Vec<(String, Vec<String>)>> {
    let mut answers = Vec::new();
    let (mut typed, mut said) = (String::new(), 0);
    for line in script.lines() {
        typed.push_str(line);
        typed.push('\n');
        if line.is_empty() || line.starts_with('#') {
            continue;
        }
        let printed = desk.run(typed.as_bytes())?.stdout;
        let answer = String::from_utf8_lossy(&printed[said.min(printed.len())..]).to_string();
        said = printed.len();
        answers.push((line.to_string(), answer.lines().map(String::from).collect()));
    }
    Ok(answers)
}

fn other_line(transcript: &str, printed: &str) -> String {
    let (mut wanted, mut found) = (transcript.split_inclusive('\n'), printed.split_inclusive('\n'));
    for number in 1.. {
        match (wanted.next(), found.next()) {
            (None, None) => break,
            (one, other) if one == other => {}
            (one, other) => return format!("transcript, line {number}: {one:?}, but the desk: {other:?}"),
        }
    }
    "transcript and desk differ".to_string()
}
