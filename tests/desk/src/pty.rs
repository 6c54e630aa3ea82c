//! A pseudo-terminal with a program behind it.

use crate::child::Program;
use std::ffi::{c_char, c_int, c_ulong, CStr};
use std::fs::{File, OpenOptions};
use std::io::{Error, Read, Result, Write};
use std::os::fd::{AsRawFd, FromRawFd};
use std::os::unix::process::CommandExt;
use std::process::{Child, Stdio};
use std::sync::mpsc::{channel, Receiver};
use std::thread;

extern "C" {
    fn posix_openpt(flags: c_int) -> c_int;
    fn grantpt(terminal: c_int) -> c_int;
    fn unlockpt(terminal: c_int) -> c_int;
    fn ptsname(terminal: c_int) -> *const c_char;
    fn setsid() -> c_int;
    fn ioctl(file: c_int, request: c_ulong, ...) -> c_int;
}

/// As Linux numbers them.
const READ_AND_WRITE: c_int = 2;
const NO_CONTROL: c_int = 0o400;
const SET_CONTROLLING_TERMINAL: c_ulong = 0x540E;

pub struct Terminal {
    pub child: Child,
    keyboard: File,
}

fn checked(result: c_int) -> Result<c_int> {
    if result < 0 {
        Err(Error::last_os_error())
    } else {
        Ok(result)
    }
}

/// The two ends of a new pseudo-terminal: ours, and the one that a program sees as its terminal.
fn open() -> Result<(File, File)> {
    // SAFETY: plain calls of the C library; the file is ours alone, and the name is copied at once.
    let (ours, name) = unsafe {
        let number = checked(posix_openpt(READ_AND_WRITE | NO_CONTROL))?;
        let ours = File::from_raw_fd(number);
        checked(grantpt(number))?;
        checked(unlockpt(number))?;
        let name = ptsname(number);
        if name.is_null() {
            return Err(Error::last_os_error());
        }
        (ours, CStr::from_ptr(name).to_string_lossy().to_string())
    };
    let theirs = OpenOptions::new().read(true).write(true).open(name)?;
    Ok((ours, theirs))
}

impl Terminal {
    /// Starts the program; what it shows on the screen, or says into a pipe instead, comes in pieces.
    pub fn start(program: &Program, into_pipe: bool) -> Result<(Terminal, Receiver<Vec<u8>>)> {
        let (ours, theirs) = open()?;
        let number = theirs.as_raw_fd();
        let mut command = program.command();
        command.stdin(Stdio::from(theirs.try_clone()?));
        command.stdout(if into_pipe { Stdio::piped() } else { Stdio::from(theirs.try_clone()?) });
        command.stderr(Stdio::from(theirs.try_clone()?));
        // SAFETY: between fork and exec only these two calls are made.
        unsafe {
            command.pre_exec(move || {
                checked(setsid())?;
                checked(ioctl(number, SET_CONTROLLING_TERMINAL, 0)).map(drop)
            });
        }
        let mut child = command.spawn()?;
        let said = match child.stdout.take() {
            Some(pipe) => pieces(pipe),
            None => pieces(ours.try_clone()?),
        };
        Ok((Terminal { child, keyboard: ours }, said))
    }

    pub fn type_in(&mut self, letters: &[u8]) -> Result<()> {
        self.keyboard.write_all(letters)
    }
}

/// What comes from the file, piece by piece, read by a thread of its own until it ends.
pub fn pieces(mut file: impl Read + Send + 'static) -> Receiver<Vec<u8>> {
    let (sender, receiver) = channel();
    thread::spawn(move || {
        let mut piece = [0; 4096];
        while let Ok(length @ 1..) = file.read(&mut piece) {
            if sender.send(piece[..length].to_vec()).is_err() {
                break;
            }
        }
    });
    receiver
}
