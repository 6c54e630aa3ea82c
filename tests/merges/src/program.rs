//! The program under test, run on one stream.

use crate::command::Command;
use crate::group::LONGEST_STREAM;
use std::io::{Result, Write};
use std::process::{Command as Process, Output, Stdio};
use std::thread;

/// Of each command the tag, the reply number and the bytes, as printed after the ordinal.
pub fn run(path: &str, commands: &[&Command]) -> std::result::Result<Vec<String>, String> {
    let stream: Vec<u8> = commands.iter().flat_map(|command| command.bytes.clone()).collect();
    assert!(stream.len() <= LONGEST_STREAM, "a stream of {} bytes", stream.len());
    let output = through(path, &stream).map_err(|error| format!("{path} did not run: {error}"))?;
    if !output.status.success() {
        return Err(format!("{path} ended with {}", output.status));
    }
    let printed = String::from_utf8(output.stdout).map_err(|error| error.to_string())?;
    let lines: Vec<&str> = printed.lines().collect();
    if lines.len() != commands.len() {
        return Err(format!("{} lines for {} commands", lines.len(), commands.len()));
    }
    let numbered = lines.iter().zip(commands).enumerate();
    numbered.map(|(number, (line, command))| answer(number + 1, command.tag, line)).collect()
}

/// The line without its ordinal; ordinal and tag must be the command's.
fn answer(ordinal: usize, tag: u8, line: &str) -> std::result::Result<String, String> {
    let rest = line.strip_prefix(&format!("{ordinal} "));
    let known = rest.filter(|rest| rest.starts_with(&format!("{tag:02X} ")));
    known.map(str::to_string).ok_or(format!("command {ordinal} has tag {tag:02X}, its line is {line:?}"))
}

/// What the program gives for the stream, which is written while its output is read.
fn through(path: &str, stream: &[u8]) -> Result<Output> {
    let mut child = Process::new(path).stdin(Stdio::piped()).stdout(Stdio::piped()).spawn()?;
    let mut input = child.stdin.take().expect("standard input is a pipe");
    thread::scope(|scope| {
        scope.spawn(move || {
            // A program that stops reading early is known by its lines.
            let _ = input.write_all(stream);
        });
        child.wait_with_output()
    })
}
