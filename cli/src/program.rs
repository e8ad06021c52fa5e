//! How a program begins and ends: its stack, its signals, its status and what it says.

pub use crate::sys::end_with_parent;
use crate::{
    drafts,
    files::{write_all, Output},
    memory, say,
};
use std::{process::ExitCode, thread};

/// Why a program does not end with status 0.
pub enum Failure {
    /// A refusal or a difference: its message. Status 1.
    Refused(String),
    /// A file, or what was to be written. Status 2.
    File(String),
    /// What is wrong with the command line, and its usage. Status 2.
    Usage(String, &'static str),
}

impl Failure {
    /// Says it, and gives the status.
    pub fn tell(self, program: &str) -> u8 {
        match self {
            Failure::Refused(message) => {
                say(&message);
                1
            }
            Failure::File(what) => {
                say(&format!("{program}: {what}\n"));
                2
            }
            Failure::Usage(what, usage) => {
                say(&format!("{program}: {what}\n{usage}"));
                2
            }
        }
    }
}

/// Prints to standard output.
pub fn print(text: &str) -> Result<(), Failure> {
    write_all(&[Output { path: None, text }]).map_err(Failure::File)
}

/// More than a call takes, whatever the limit of the shell (`ulimit -s`).
pub const STACK: usize = 16 << 20;

/// Runs a program in a thread with stack enough. Its own status, where nothing fails, is what it returns.
pub fn run(program: &'static str, body: fn() -> Result<u8, Failure>) -> ExitCode {
    let _ = memory::PROGRAM.set(program);
    let ended = match drafts::watch() {
        Err(error) => Err(Failure::File(format!("cannot wait for signals: {}", crate::files::why(&error)))),
        Ok(()) => match thread::Builder::new().stack_size(STACK).spawn(body).map(thread::JoinHandle::join) {
            Ok(Ok(ended)) => ended,
            Ok(Err(_)) => Err(Failure::File(format!("a fault of {program} itself"))),
            Err(_) => Err(Failure::File("there is no memory for a stack of 16 MB".into())),
        },
    };
    ExitCode::from(ended.unwrap_or_else(|failure| failure.tell(program)))
}
