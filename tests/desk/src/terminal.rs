//! `terminal`: the desk as a person has it, at a terminal; and line by line through a pipe.

use crate::child::Program;
use crate::desk::{Desk, Outcome};
use crate::pty::{pieces, Terminal};
use std::io::{Result, Write};
use std::process::{Child, Stdio};
use std::sync::mpsc::{Receiver, RecvTimeoutError};
use std::time::{Duration, Instant};

/// So long a person waits for an answer.
const PATIENCE: Duration = Duration::from_secs(10);
/// So long nothing more must come.
const QUIET: Duration = Duration::from_millis(60);

const PROMPT: &str = "> ";
const GREETING: &str =
    "The desk of the key notarization facility. help lists the commands, quit leaves.\r\n> ";
const END_OF_INPUT: &[u8] = b"\x04";

/// What a person types: a mistake, its correction, `$n`, who and help among it.
const TYPED: [&str; 18] = [
    "who",
    "EIK 1 0123456789ABCDEF",
    "IPW 5 112233445566778",
    "IPW 5 1122334455667788",
    "ipw 6 8877665544332211",
    "RAS 5 1122334455667789",
    "RAS 5 1122334455667788",
    "ras 6 8877665544332211",
    "GDK 5 6 1 3B5C2A9107E4D86F",
    "LDK 5 6 1 t $8",
    "LDK 5 6 1 t $7",
    "LDK 6 5 1 r $7",
    "",
    "# a comment",
    "ECBE 5 \"EIGHT # LETTERS.\"",
    "ECBD 6 $10",
    "help",
    "who",
];

/// The desk's letters as they come.
struct Heard {
    source: Receiver<Vec<u8>>,
    text: Vec<u8>,
}

impl Heard {
    /// Waits until the text ends as wanted, and takes it; what came instead, where it does not.
    fn until(&mut self, ends: impl Fn(&str) -> bool) -> std::result::Result<String, String> {
        let deadline = Instant::now() + PATIENCE;
        loop {
            let text = String::from_utf8_lossy(&self.text).to_string();
            if ends(&text) {
                self.text.clear();
                return Ok(text);
            }
            let left = deadline.saturating_duration_since(Instant::now());
            match self.source.recv_timeout(left) {
                Ok(piece) => self.text.extend(piece),
                Err(RecvTimeoutError::Timeout) => {
                    return Err(format!("waited in vain; the desk said {text:?}"))
                }
                Err(RecvTimeoutError::Disconnected) => {
                    return Err(format!("the desk ended, and said {text:?}"))
                }
            }
        }
    }

    /// Whether nothing comes for a while.
    fn is_quiet(&mut self) -> bool {
        match self.source.recv_timeout(QUIET) {
            Ok(piece) => {
                self.text.extend(piece);
                false
            }
            Err(_) => true,
        }
    }

    /// Waits until the other end has closed.
    fn until_end(&mut self) -> std::result::Result<String, String> {
        let deadline = Instant::now() + PATIENCE;
        loop {
            match self.source.recv_timeout(deadline.saturating_duration_since(Instant::now())) {
                Ok(piece) => self.text.extend(piece),
                Err(RecvTimeoutError::Disconnected) => {
                    return Ok(String::from_utf8_lossy(&self.text).to_string())
                }
                Err(RecvTimeoutError::Timeout) => return Err("the desk does not end".to_string()),
            }
        }
    }
}

type Checked<T = ()> = std::result::Result<T, String>;

pub fn terminal(desk: Program) -> Result<bool> {
    let help = String::from_utf8_lossy(&desk.run(b"help\n")?.stdout).to_string();
    let parts: [(&str, Checked); 5] = [
        ("at a terminal, to ctrl-D", at_terminal(&desk, &help)),
        ("at a terminal, to quit", quits(&desk)),
        ("at a terminal, but into a pipe", into_pipe(&desk, &help)),
        ("through a pipe, line by line", through_pipe(&desk, &help)),
        ("through a pipe, the last line without line feed", last_line(&desk)),
    ];
    for (name, checked) in &parts {
        match checked {
            Ok(()) => println!("{name}: as it should be"),
            Err(fault) => println!("{name}: {fault}"),
        }
    }
    let faults = parts.iter().filter(|part| part.1.is_err()).count();
    println!("terminal: {} lines typed, {faults} faults", TYPED.len());
    Ok(faults == 0)
}

/// The model's answers to what is typed, with the desk's own help.
fn answers(help: &str) -> Vec<String> {
    let mut desk = Desk::fresh();
    let answer = |line: &&str| match desk.take(line.as_bytes()) {
        (Outcome::Help, _) => help.to_string(),
        (_, answer) => answer,
    };
    TYPED.iter().map(answer).collect()
}

fn told<T>(result: Result<T>) -> Checked<T> {
    result.map_err(|error| error.to_string())
}

/// The desk at a new terminal, its greeting and the first prompt read.
fn greeted(desk: &Program) -> Checked<(Terminal, Heard)> {
    let (terminal, source) = told(Terminal::start(desk, false))?;
    let mut heard = Heard { source, text: Vec::new() };
    let greeting = heard.until(|text| text.ends_with(PROMPT))?;
    if greeting == GREETING {
        Ok((terminal, heard))
    } else {
        Err(format!("the greeting is {greeting:?}"))
    }
}

fn at_terminal(desk: &Program, help: &str) -> Checked {
    let (mut terminal, mut heard) = greeted(desk)?;
    for (line, answer) in TYPED.iter().zip(answers(help)) {
        told(terminal.type_in(format!("{line}\n").as_bytes()))?;
        let wanted = format!("{line}\n{answer}{PROMPT}").replace('\n', "\r\n");
        let said = heard.until(|text| text.len() >= wanted.len())?;
        if said != wanted {
            return Err(format!("after {line:?} the screen shows {said:?}, not {wanted:?}"));
        }
    }
    corrects(&mut terminal, &mut heard)?;
    told(terminal.type_in(END_OF_INPUT))?;
    let rest = heard.until_end()?;
    if rest != "\r\n" {
        return Err(format!("at the end came {rest:?}"));
    }
    ends(&mut terminal.child)
}

/// A letter mistyped, rubbed out and typed again, as the terminal allows.
fn corrects(terminal: &mut Terminal, heard: &mut Heard) -> Checked {
    told(terminal.type_in(b"LAY\x7FU 7\n"))?;
    let said = heard.until(|text| text.ends_with(PROMPT) && text.contains("\r\n"))?;
    if said.ends_with(" 02 3 -\r\n    LAU refused: issuer not active\r\n> ") {
        Ok(())
    } else {
        Err(format!("after a correction: {said:?}"))
    }
}

fn quits(desk: &Program) -> Checked {
    let (mut terminal, _heard) = greeted(desk)?;
    told(terminal.type_in(b"quit\n"))?;
    ends(&mut terminal.child)
}

/// Waits for the program's end, which has to be a good one.
fn ends(child: &mut Child) -> Checked {
    let deadline = Instant::now() + PATIENCE;
    while Instant::now() < deadline {
        match told(child.try_wait())? {
            Some(status) if status.success() => return Ok(()),
            Some(status) => return Err(format!("the desk ended with {status}")),
            None => std::thread::sleep(QUIET / 6),
        }
    }
    told(child.kill())?;
    Err("the desk does not end".to_string())
}

fn piped(desk: &Program) -> Checked<(Child, Heard)> {
    let mut command = desk.command();
    command.stdin(Stdio::piped()).stdout(Stdio::piped());
    let mut child = told(command.spawn())?;
    let output = child.stdout.take().ok_or("no pipe")?;
    Ok((child, Heard { source: pieces(output), text: Vec::new() }))
}

/// Each answer, whole and with nothing after it, comes before the next line goes.
fn only_answers(heard: &mut Heard, help: &str, mut type_in: impl FnMut(&[u8]) -> Result<()>) -> Checked {
    for (line, answer) in TYPED.iter().zip(answers(help)) {
        told(type_in(format!("{line}\n").as_bytes()))?;
        let said = heard.until(|text| text.len() >= answer.len())?;
        if said != answer || !heard.is_quiet() {
            let more = String::from_utf8_lossy(&heard.text).to_string();
            return Err(format!("to {line:?} came {said:?} and {more:?}, not {answer:?}"));
        }
    }
    Ok(())
}

fn ends_silently(child: &mut Child, heard: &mut Heard) -> Checked {
    let rest = heard.until_end()?;
    if !rest.is_empty() {
        return Err(format!("at the end came {rest:?}"));
    }
    ends(child)
}

/// As in `desk | tee`: neither greeting nor prompt, and no line's end where the input ends.
fn into_pipe(desk: &Program, help: &str) -> Checked {
    let (mut terminal, source) = told(Terminal::start(desk, true))?;
    let mut heard = Heard { source, text: Vec::new() };
    only_answers(&mut heard, help, |line| terminal.type_in(line))?;
    told(terminal.type_in(END_OF_INPUT))?;
    ends_silently(&mut terminal.child, &mut heard)
}

fn through_pipe(desk: &Program, help: &str) -> Checked {
    let (mut child, mut heard) = piped(desk)?;
    let mut input = child.stdin.take().ok_or("no pipe")?;
    only_answers(&mut heard, help, |line| input.write_all(line))?;
    drop(input);
    ends_silently(&mut child, &mut heard)
}

fn last_line(desk: &Program) -> Checked {
    let (mut child, mut heard) = piped(desk)?;
    let mut input = child.stdin.take().ok_or("no pipe")?;
    told(input.write_all(b"who\nRPW"))?;
    heard.until(|text| text == "active users: 0 of 16\n")?;
    if !heard.is_quiet() {
        return Err("half a line was answered".to_string());
    }
    drop(input);
    let rest = heard.until_end()?;
    if !rest.starts_with("1 22 7 -\n    RPW refused: out of turn") {
        return Err(format!("at the end came {rest:?}"));
    }
    ends(&mut child)
}
