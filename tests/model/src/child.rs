//! The program under test, run as a child on one stream.

use std::io::{Result, Write};
use std::process::{Command, Output, Stdio};
use std::thread;

pub struct Program {
    pub path: String,
    pub args: Vec<String>,
}

impl Program {
    /// The stream goes through a pipe in pieces, so that the program has to read on.
    pub fn run(&self, stream: &[u8], piece: usize) -> Result<Output> {
        let mut child = Command::new(&self.path)
            .args(&self.args)
            .stdin(Stdio::piped())
            .stdout(Stdio::piped())
            .stderr(Stdio::piped())
            .spawn()?;
        let mut input = child.stdin.take().expect("standard input is a pipe");
        thread::scope(|scope| {
            scope.spawn(move || {
                // A program may stop reading after 65536 bytes; what it leaves is no fault.
                let _ = stream.chunks(piece).try_for_each(|part| input.write_all(part));
            });
            child.wait_with_output()
        })
    }
}
