//! Why a command ends early.

use std::io;

pub enum Failure {
    /// Bad arguments or a malformed line: told on standard error, exit status 2.
    Usage(String),
    /// Standard input or output failed: exit status 1.
    Stream(io::Error),
    /// The self test found a fault, and has said which: exit status 1.
    Fault,
}

impl From<io::Error> for Failure {
    fn from(error: io::Error) -> Failure {
        Failure::Stream(error)
    }
}

pub type Done = Result<(), Failure>;

pub fn usage<T>(message: impl Into<String>) -> Result<T, Failure> {
    Err(Failure::Usage(message.into()))
}
