//! A page beside the runs that it shows, and the page with their answers written anew.

use crate::sitting::Sitting;
use std::fs;
use std::io::Result;
use std::path::{Path, PathBuf};

const INDENT: &str = "    ";

/// What is typed on the page has to be each desk's script, line by line and wholly. Below a line stands its whole answer; one that is only `done` may be
/// left out.
pub struct Page<'a> {
    file: PathBuf,
    sittings: &'a [Sitting],
    /// How many lines of each desk have been shown.
    shown: Vec<usize>,
    text: String,
    renewed: String,
    /// What is typed is no script's.
    astray: Vec<String>,
    /// An answer is not the desk's.
    stale: Vec<String>,
}

impl<'a> Page<'a> {
    /// A block is neighbouring lines that are indented by four spaces; one whose first line does not open a run is passed over.
    pub fn beside(file: &Path, sittings: &'a [Sitting], opens: impl Fn(&str) -> bool) -> Result<Page<'a>> {
        let text = fs::read_to_string(file)?;
        let (renewed, astray, stale) = (String::new(), Vec::new(), Vec::new());
        let shown = vec![0; sittings.len()];
        let mut page =
            Page { file: file.into(), sittings, shown, text: text.clone(), renewed, astray, stale };
        let lines: Vec<&str> = text.lines().collect();
        for block in lines.chunk_by(|one, other| one.starts_with(INDENT) == other.starts_with(INDENT)) {
            let run: Vec<&str> = block.iter().filter_map(|line| line.strip_prefix(INDENT)).collect();
            if run.is_empty() || !opens(run[0]) {
                block.iter().for_each(|line| page.write("", line));
            } else {
                run.chunk_by(|_, next| typed(next, sittings).is_none()).for_each(|part| page.take(part));
            }
        }
        Ok(page)
    }

    fn write(&mut self, indent: &str, line: &str) {
        self.renewed.push_str(indent);
        self.renewed.push_str(line);
        self.renewed.push('\n');
    }

    /// A line that was typed, and what stands below it.
    fn take(&mut self, part: &[&str]) {
        self.write(INDENT, part[0]);
        let Some((at, typed)) = typed(part[0], self.sittings) else {
            return self.astray.push(format!("shows {part:?}, which nobody typed"));
        };
        let due = self.sittings[at].answers.get(self.shown[at]);
        self.shown[at] += 1;
        let Some((_, answer)) = due.filter(|(line, _)| line == typed) else {
            let line = due.map(|(line, _)| line);
            return self.astray.push(format!("has {typed:?}, where the script has {line:?}"));
        };
        if part.len() > 1 || !is_only_done(answer) {
            answer.iter().for_each(|line| self.write(INDENT, line));
            if answer != &part[1..] {
                self.stale.push(format!("shows {part:?}, and the answer is {answer:?}"));
            }
        }
    }

    /// The first line that is astray, and no more of these. Where asked, the answers are written anew; not where a line is astray.
    pub fn faults(self, writes: bool) -> Result<Vec<String>> {
        let mut faults: Vec<String> = self.astray.into_iter().take(1).collect();
        for (desk, shown) in self.sittings.iter().zip(self.shown) {
            faults.extend(desk.answers.get(shown).map(|(line, _)| format!("leaves out {line:?}")));
        }
        if !writes {
            faults.extend(self.stale);
        } else if faults.is_empty() && self.renewed != self.text {
            fs::write(&self.file, self.renewed)?;
        }
        Ok(faults.into_iter().map(|fault| format!("{} {fault}", self.file.display())).collect())
    }
}

/// At which desk a line was typed, and what.
fn typed<'a>(line: &'a str, sittings: &[Sitting]) -> Option<(usize, &'a str)> {
    sittings.iter().enumerate().find_map(|(at, desk)| Some((at, line.strip_prefix(&desk.prompt)?)))
}

/// NOTARY's line without bytes, and the line of words.
fn is_only_done(answer: &[String]) -> bool {
    answer.len() == 2 && answer[0].ends_with(" 0 -") && answer[1].ends_with(" done")
}
