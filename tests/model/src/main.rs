//! A model of document 01, and the streams that put a program beside it.

mod child;
mod compare;
mod cuts;
mod des;
mod edges;
mod facility;
mod faults;
mod flows;
mod fuzz;
mod generate;
mod meaning;
mod modes;
mod notarize;
mod notary;
mod pairs;
mod random;
mod refusals;
mod rules;
mod scene;
mod selftest;
mod slowest;
mod stage;
mod stream;
mod tables;
mod walk;
mod write;

use child::Program;
use std::io::{Read, Result, Write};
use std::process::ExitCode;

const USAGE: &str = "\
model run                                    the lines of NOTARY for the stream on standard input
model selftest                               the model beside what is published
model compare PATH [--streams N] [--seed S]  a program beside the model on N streams
model fuzz PATH [--runs N] [--seed S]        a program beside the model on damaged streams
model stream [--number N] [--seed S]         writes one stream of compare
model slowest                                writes the slowest known stream
model time PATH                              times a program and the model on it
with PATH also: --arg A                      an argument for the program, as often as wanted";

/// What the command line asks for after its first word.
#[derive(Default)]
struct Request {
    path: Option<String>,
    args: Vec<String>,
    count: Option<usize>,
    seed: u64,
}

impl Request {
    fn from(mut words: impl Iterator<Item = String>) -> Option<Request> {
        let mut request = Request { seed: 1, ..Request::default() };
        while let Some(word) = words.next() {
            match word.as_str() {
                "--arg" => request.args.push(words.next()?),
                "--streams" | "--runs" | "--number" => request.count = Some(words.next()?.parse().ok()?),
                "--seed" => request.seed = words.next()?.parse().ok()?,
                path if request.path.is_none() && !path.starts_with("--") => request.path = Some(word),
                _ => return None,
            }
        }
        Some(request)
    }

    fn program(&self) -> Option<Program> {
        Some(Program { path: self.path.clone()?, args: self.args.clone() })
    }
}

fn print_lines() -> Result<bool> {
    let mut input = Vec::new();
    std::io::stdin().take(stream::LONGEST_INPUT as u64).read_to_end(&mut input)?;
    std::io::stdout().write_all(stream::run(&input).as_bytes())?;
    Ok(true)
}

fn write_stream(stream: &[u8]) -> Result<bool> {
    std::io::stdout().write_all(stream)?;
    Ok(true)
}

/// Whether all went well; None where the command line is not understood.
fn obey(word: &str, request: Request) -> Option<Result<bool>> {
    let count = request.count;
    Some(match word {
        "run" => print_lines(),
        "selftest" => Ok(selftest::run()),
        "compare" => Ok(compare::compare(request.program()?, count.unwrap_or(2000), request.seed)),
        "fuzz" => Ok(fuzz::fuzz(request.program()?, count.unwrap_or(10_000), request.seed)),
        "stream" => write_stream(&compare::stream(request.seed, count.unwrap_or(0))),
        "slowest" => write_stream(&slowest::stream()),
        "time" => slowest::time(request.program()?),
        _ => return None,
    })
}

fn main() -> ExitCode {
    let mut words = std::env::args().skip(1);
    let word = words.next().unwrap_or_default();
    match Request::from(words).and_then(|request| obey(&word, request)) {
        Some(Ok(true)) => ExitCode::SUCCESS,
        Some(Ok(false)) => ExitCode::FAILURE,
        Some(Err(error)) => {
            eprintln!("model: {error}");
            ExitCode::FAILURE
        }
        None => {
            eprintln!("{USAGE}");
            ExitCode::from(2)
        }
    }
}
