//! How a command fails, and what its exit status is.

use std::io;

use sledgewren::Refusal;

/// The ways to fail.
#[derive(Debug)]
pub enum Failure {
    /// Wrong usage: status 2.
    Usage(String),
    /// Refused, not accepted, or a file that cannot be read or written: status 1.
    Refused(String),
    /// Standard output cannot be written: status 1, or 141 and no word where its reader is gone.
    Output(io::Error),
}

impl Failure {
    /// The same, with the command named where the usage is wrong.
    pub fn in_command(self, name: &str) -> Failure {
        match self {
            Failure::Usage(words) => Failure::Usage(format!("{name}: {words}")),
            other => other,
        }
    }
}

impl From<io::Error> for Failure {
    fn from(error: io::Error) -> Failure {
        Failure::Output(error)
    }
}

impl From<Refusal> for Failure {
    fn from(refusal: Refusal) -> Failure {
        Failure::Refused(refusal.to_string())
    }
}

/// What a command gives.
pub type Done = Result<(), Failure>;
