//! `lines`: random lines and changed lines, at the desk and at the scribe, beside the model.

use crate::audit::audit;
use crate::batch::{batch, plans, Batch, Line, Plan};
use crate::cases;
use crate::child::Program;
use crate::desk::{Desk, Outcome};
use crate::reached::Reached;
use crate::special;
use model::generate::Kind;
use model::random::Random;
use std::process::Output;

/// So many differences are shown; the others are counted.
const SHOWN: usize = 10;

pub struct Lines {
    desk: Program,
    scribe: Program,
    help: String,
    pub reached: Reached,
    runs: [usize; 2],
    differences: usize,
    extent: Extent,
}

/// How much is tested: so many random or changed lines, one in so many bad lines at the scribe;
/// and whether the first difference ends it; then it does not matter what was reached.
#[derive(Clone, Copy)]
pub struct Extent {
    pub lines: usize,
    pub every: usize,
    pub seed: u64,
    pub to_first: bool,
}

pub fn lines(desk: Program, scribe: Program, extent: Extent) -> bool {
    let mut test = Lines::new(desk, scribe, extent);
    let (cases, cases_agree) = cases::batch();
    test.put(&cases, 1);
    special::batches().iter().for_each(|batch| test.put(batch, 1));
    let plans = plans();
    let mut number = 0;
    while test.goes_on() && (test.reached.noise < extent.lines || number < plans.len()) {
        let plan = plans.get(number).copied().unwrap_or(Plan::Stream(Kind::Walk));
        let batch = batch(plan, Random::new(extent.seed, number as u64), number);
        test.put(&batch, extent.every);
        number += 1;
    }
    test.a_million_lines();
    test.end() && cases_agree
}

impl Lines {
    fn new(desk: Program, scribe: Program, extent: Extent) -> Lines {
        let (help, reached) = (String::new(), Reached::new());
        let mut test = Lines { desk, scribe, help, reached, runs: [0; 2], differences: 0, extent };
        test.learn_help();
        test
    }

    /// The page leaves the words of help open, but each command has to be named.
    fn learn_help(&mut self) {
        let Ok(output) = self.desk.run(b"help\n") else {
            return self.differ("help", "the desk did not run".to_string());
        };
        self.help = String::from_utf8_lossy(&output.stdout).to_string();
        for rule in &model::rules::RULES {
            if !self.help.contains(crate::says::name_of(rule)) {
                self.differ("help", format!("nothing of {}", rule.name));
            }
        }
    }

    fn goes_on(&self) -> bool {
        self.differences == 0 || !self.extent.to_first
    }

    fn a_million_lines(&mut self) {
        if !self.goes_on() {
            return;
        }
        let (input, wanted) = special::a_million_lines();
        match self.desk.run(&input) {
            Ok(output) if output.stdout == wanted.as_bytes() => {}
            Ok(output) => {
                let printed = String::from_utf8_lossy(&output.stdout).to_string();
                self.differ("a million lines", first_difference(&wanted, &printed));
            }
            Err(error) => self.differ("a million lines", error.to_string()),
        }
    }

    /// One in so many bad lines goes to the scribe.
    fn put(&mut self, batch: &Batch, every: usize) {
        if !self.goes_on() {
            return;
        }
        self.reached.meet(batch);
        self.put_desk(batch);
        self.put_scribe(batch, every);
    }

    fn put_desk(&mut self, batch: &Batch) {
        self.runs[0] += 1;
        let output = match self.desk.run(&batch.input()) {
            Ok(output) => output,
            Err(error) => return self.differ(&batch.name, format!("the desk did not run: {error}")),
        };
        if output.status.code() != Some(0) || !output.stderr.is_empty() {
            self.differ(&batch.name, ended(&output));
        }
        let printed = String::from_utf8_lossy(&output.stdout);
        let answer = |line: &Line| match line.outcome {
            Outcome::Help => self.help.clone(),
            _ => line.answer.clone(),
        };
        let answers: Vec<String> = batch.lines.iter().map(answer).collect();
        if let Some(fault) = first_other_answer(batch, &answers, &printed) {
            self.differ(&batch.name, fault);
        }
        let lines: Vec<&[u8]> = batch.lines.iter().map(|line| line.letters.as_slice()).collect();
        if let Err(fault) = audit(&lines, &printed, &self.help) {
            self.differ(&batch.name, format!("looked at without the model: {fault}"));
        }
    }

    /// The good lines alone; and bad lines, each after the good lines before it.
    fn put_scribe(&mut self, batch: &Batch, every: usize) {
        let is_bad = |line: &Line| matches!(line.outcome, Outcome::Bad(_));
        let bad: Vec<usize> = (0..batch.lines.len()).filter(|&at| is_bad(&batch.lines[at])).collect();
        let good = |upto: usize| batch.lines[..upto].iter().filter(|line| !is_bad(line));
        self.put_scribe_lines(batch, good(batch.lines.len()).collect());
        for &at in bad.iter().skip(batch.lines.len() % every).step_by(every) {
            let after = &batch.lines[at..batch.lines.len().min(at + 3)];
            self.put_scribe_lines(batch, good(at).chain(after).collect());
        }
    }

    fn put_scribe_lines(&mut self, batch: &Batch, lines: Vec<&Line>) {
        self.runs[1] += 1;
        let letters: Vec<&[u8]> = lines.iter().map(|line| line.letters.as_slice()).collect();
        let mut input = letters.join(&b'\n');
        if batch.last_has_feed {
            input.push(b'\n');
        }
        let (bytes, message) = wanted_of_scribe(&lines);
        let output = match self.scribe.run(&input) {
            Ok(output) => output,
            Err(error) => return self.differ(&batch.name, format!("the scribe did not run: {error}")),
        };
        if output.status.code().is_none() || message.is_empty() && !output.status.success() {
            self.differ(&batch.name, format!("the scribe: {}", ended(&output)));
        }
        let said = String::from_utf8_lossy(&output.stderr);
        if said != message {
            let last = lines.last().map_or(&[][..], |line| &line.letters);
            let last = String::from_utf8_lossy(&last[..last.len().min(200)]).to_string();
            self.differ(&batch.name, format!("the scribe said {said:?}, not {message:?}, near {last:?}"));
        }
        if output.stdout != bytes {
            let same = output.stdout.iter().zip(&bytes).take_while(|(one, other)| one == other).count();
            let lengths = format!("{} bytes, not {}", output.stdout.len(), bytes.len());
            self.differ(&batch.name, format!("the scribe wrote {lengths}; the first {same} agree"));
        }
    }

    fn differ(&mut self, name: &str, fault: String) {
        self.differences += 1;
        if self.differences <= SHOWN {
            println!("difference in {name}\n  {fault}");
        }
    }

    fn end(&self) -> bool {
        let whole = self.reached.print();
        let Reached { lines, noise, bad, .. } = self.reached;
        let [desk, scribe] = self.runs;
        println!(
            "lines: {lines} lines, {noise} of them random or changed, {bad} bad, {desk} runs of the desk, {scribe} of the scribe, {} differences",
            self.differences
        );
        (whole || self.extent.to_first) && self.differences == 0
    }
}

/// The bytes up to the first bad line, and what is said of that; `quit` ends the scribe.
fn wanted_of_scribe(lines: &[&Line]) -> (Vec<u8>, String) {
    let mut bytes = Vec::new();
    for (index, line) in lines.iter().enumerate() {
        match &line.outcome {
            Outcome::Bad(wrong) => return (bytes, wrong.answer(index as u64 + 1)),
            outcome if Desk::ends(outcome) => break,
            _ => bytes.extend(&line.written),
        }
    }
    (bytes, String::new())
}

fn ended(output: &Output) -> String {
    format!("ended with {}, standard error {:?}", output.status, String::from_utf8_lossy(&output.stderr))
}

/// The first line whose answer is not the model's.
fn first_other_answer(batch: &Batch, answers: &[String], printed: &str) -> Option<String> {
    let mut rest = printed;
    for (line, answer) in batch.lines.iter().zip(answers) {
        let Some(after) = rest.strip_prefix(answer.as_str()) else {
            let letters = String::from_utf8_lossy(&line.letters[..line.letters.len().min(200)]).to_string();
            return Some(format!("to {letters:?}\n  {}", first_difference(answer, rest)));
        };
        rest = after;
    }
    (!rest.is_empty()).then(|| format!("after the last answer: {}", shortened(rest)))
}

fn first_difference(wanted: &str, printed: &str) -> String {
    let (mut wanted, mut printed) = (wanted.split_inclusive('\n'), printed.split_inclusive('\n'));
    loop {
        let (model, program) = (wanted.next(), printed.next());
        if model != program || model.is_none() {
            let shown = |line: Option<&str>| line.map_or("nothing".to_string(), shortened);
            return format!("model   {}\n  program {}", shown(model), shown(program));
        }
    }
}

fn shortened(text: &str) -> String {
    let short: String = text.chars().take(200).collect();
    format!("{short:?}")
}
