//! A program under test, run on one input with a limit on its time.

use std::io::{Error, ErrorKind, Read, Result, Write};
use std::process::{Command, Output, Stdio};
use std::sync::mpsc::channel;
use std::thread;
use std::time::Duration;

const PATIENCE: Duration = Duration::from_secs(120);

#[derive(Clone)]
pub struct Program {
    pub path: String,
    pub args: Vec<String>,
}

impl Program {
    pub fn command(&self) -> Command {
        let mut command = Command::new(&self.path);
        command.args(&self.args);
        command
    }

    /// What the program says to the input; an error where it does not end in time.
    pub fn run(&self, input: &[u8]) -> Result<Output> {
        let mut command = self.command();
        command.stdin(Stdio::piped()).stdout(Stdio::piped()).stderr(Stdio::piped());
        let mut child = command.spawn()?;
        let mut keyboard = child.stdin.take().ok_or(ErrorKind::BrokenPipe)?;
        let input = input.to_vec();
        // A program that has ended leaves the rest of its input; that is no fault.
        thread::spawn(move || keyboard.write_all(&input));
        let outputs: [Box<dyn Read + Send>; 2] = [
            Box::new(child.stdout.take().ok_or(ErrorKind::BrokenPipe)?),
            Box::new(child.stderr.take().ok_or(ErrorKind::BrokenPipe)?),
        ];
        let read = outputs.map(|mut output| {
            let (sender, receiver) = channel();
            thread::spawn(move || {
                let mut bytes = Vec::new();
                let _ = output.read_to_end(&mut bytes);
                sender.send(bytes)
            });
            receiver
        });
        let [Ok(stdout), Ok(stderr)] = read.map(|bytes| bytes.recv_timeout(PATIENCE)) else {
            child.kill()?;
            return Err(Error::new(ErrorKind::TimedOut, "it did not end in time"));
        };
        Ok(Output { status: child.wait()?, stdout, stderr })
    }
}
