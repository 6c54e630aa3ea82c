//! A model of docs/DESK.md, and the tests that put the programs `scribe` and `desk` beside it.

mod audit;
mod batch;
mod cases;
mod child;
mod decode;
mod desk;
mod expected;
mod fault;
mod faults;
mod kept;
mod lessons;
mod lines;
mod noise;
mod page;
mod play;
mod pointers;
mod pty;
mod reached;
mod round;
mod says;
mod sitting;
mod special;
mod spell;
mod terminal;
mod words;

use child::Program;
use lines::Extent;
use std::io::Result;
use std::path::Path;
use std::process::ExitCode;

const USAGE: &str = "\
desk model [--scribe | --notary]               answers standard input as the desk, the scribe or NOTARY does
desk lines DESK SCRIBE [--lines N] [--seed S]  random and changed lines beside the model
    also --every N (one in N bad lines at the scribe; 3), --first (the first difference ends it)
desk round SCRIBE NOTARY DESK [--commands N]   commands through words, bytes and back; desk beside NOTARY
desk lessons DESK DIR [--write]                each lesson's script beside its transcript and page; --write: these anew
desk terminal DESK                             at a pseudo-terminal, from there into a pipe, and line by line through a pipe
desk faults                                    faults put into the model, each told by one of the tests above
a program is a path, or words with spaces between them: the program and its arguments";

/// What the command line asks for after its first word.
struct Request {
    words: Vec<String>,
    scribe: bool,
    notary: bool,
    write: bool,
    commands: usize,
    extent: Extent,
}

impl Default for Request {
    fn default() -> Request {
        let extent = Extent { lines: 24_000, every: 3, seed: 1, to_first: false };
        Request { words: Vec::new(), scribe: false, notary: false, write: false, commands: 5_000, extent }
    }
}

impl Request {
    fn from(mut given: impl Iterator<Item = String>) -> Option<Request> {
        let mut request = Request::default();
        while let Some(word) = given.next() {
            let mut number = || given.next()?.parse::<usize>().ok();
            match word.as_str() {
                "--scribe" => request.scribe = true,
                "--notary" => request.notary = true,
                "--write" => request.write = true,
                "--first" => request.extent.to_first = true,
                "--lines" => request.extent.lines = number()?,
                "--every" => request.extent.every = number()?.max(1),
                "--seed" => request.extent.seed = number()? as u64,
                "--commands" => request.commands = number()?,
                "--fault" => fault::switch_on(number()?),
                _ if word.starts_with("--") => return None,
                _ => request.words.push(word),
            }
        }
        Some(request)
    }

    fn program(&self, index: usize) -> Option<Program> {
        let mut words = self.words.get(index)?.split(' ').map(String::from);
        Some(Program { path: words.next()?, args: words.collect() })
    }
}

/// Whether all went well; None where the command line is not understood.
fn obey(word: &str, request: Request) -> Option<Result<bool>> {
    Some(match word {
        "model" if request.scribe => play::scribe(),
        "model" if request.notary => play::notary(),
        "model" => play::desk(),
        "lines" => Ok(lines::lines(request.program(0)?, request.program(1)?, request.extent)),
        "round" => {
            let programs = [request.program(0)?, request.program(1)?, request.program(2)?];
            Ok(round::round(programs, request.commands, request.extent.seed))
        }
        "terminal" => terminal::terminal(request.program(0)?),
        "lessons" => {
            let directory = Path::new(request.words.get(1)?);
            lessons::lessons(request.program(0)?, directory, request.write)
        }
        "faults" => faults::faults(),
        _ => return None,
    })
}

fn main() -> ExitCode {
    let mut words = std::env::args().skip(1);
    let word = words.next().unwrap_or_default();
    match Request::from(words).and_then(|request| obey(&word, request)) {
        Some(Ok(true)) => ExitCode::SUCCESS,
        Some(Ok(false)) => ExitCode::FAILURE,
        Some(Err(error)) => {
            eprintln!("desk: {error}");
            ExitCode::FAILURE
        }
        None => {
            eprintln!("{USAGE}");
            ExitCode::from(2)
        }
    }
}
