//! The model in the part of the desk or the scribe, for a pipe or a terminal.

use crate::desk::{Desk, Outcome};
use crate::fault::{self, Fault};
use model::stream::LONGEST_INPUT;
use std::io::{stderr, stdin, stdout, BufRead, IsTerminal, Read, Result, Write};

const MOST_LINES: u64 = 1_000_000;

/// The next line without its line feed; None where the input has ended.
fn next_line(input: &mut impl BufRead) -> Result<Option<Vec<u8>>> {
    let mut line = Vec::new();
    if input.read_until(b'\n', &mut line)? == 0 {
        return Ok(None);
    }
    if line.last() == Some(&b'\n') {
        line.pop();
    } else if fault::on(Fault::LastLineLost) {
        return Ok(None);
    }
    Ok(Some(line))
}

fn write_out(bytes: &[u8]) -> Result<()> {
    stdout().write_all(bytes)?;
    stdout().flush()
}

/// Says it at once; a faulty desk holds it back.
fn say(held_back: &mut Vec<u8>, bytes: &[u8]) -> Result<()> {
    if fault::on(Fault::AnswersAtTheEnd) {
        held_back.extend(bytes);
        return Ok(());
    }
    write_out(bytes)
}

pub fn desk() -> Result<bool> {
    let mut held_back = Vec::new();
    converse(&mut held_back)?;
    write_out(&held_back)?;
    Ok(true)
}

fn converse(held_back: &mut Vec<u8>) -> Result<()> {
    let at_terminal = stdin().is_terminal() && (stdout().is_terminal() || fault::on(Fault::PromptBeforePipe));
    let asks = at_terminal && !fault::on(Fault::NoPromptAtTerminal) || fault::on(Fault::PromptInPipe);
    let mut input = stdin().lock();
    let mut desk = Desk::fresh();
    if asks {
        write_out(b"The desk of the key notarization facility. help lists the commands, quit leaves.\n")?;
    }
    loop {
        if asks {
            write_out(b"> ")?;
        }
        let Some(line) = next_line(&mut input)? else {
            return if asks { write_out(b"\n") } else { Ok(()) };
        };
        let (outcome, answer) = desk.take(&line);
        say(held_back, answer.as_bytes())?;
        if Desk::ends(&outcome) {
            return Ok(());
        }
        if desk.line == MOST_LINES {
            return say(held_back, b"the desk has read 1000000 lines, and stops\n");
        }
    }
}

pub fn scribe() -> Result<bool> {
    let mut input = stdin().lock();
    let mut scribe = Desk::of_scribe();
    while let Some(line) = next_line(&mut input)? {
        match scribe.take(&line) {
            (Outcome::Bad(wrong), _) => {
                stderr().write_all(wrong.answer(scribe.line).as_bytes())?;
                if !fault::on(Fault::ScribeGoesOn) {
                    return Ok(false);
                }
            }
            (Outcome::Quit, _) => return Ok(true),
            _ => write_out(&scribe.written)?,
        }
    }
    Ok(true)
}

/// NOTARY's lines for the stream on standard input.
pub fn notary() -> Result<bool> {
    let mut stream = Vec::new();
    stdin().take(LONGEST_INPUT as u64).read_to_end(&mut stream)?;
    write_out(model::stream::run(&stream).as_bytes())?;
    Ok(true)
}
