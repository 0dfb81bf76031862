//! The oracle: an independent second program for two kings and one man of either side.

use std::ffi::OsString;
use std::io::{self, Write};
use std::process::ExitCode;

use oracle::commands;
use oracle::failure::Failure;

/// A message on standard error; if even that is closed there is nobody to tell.
fn tell(message: &str) {
    let _ = writeln!(io::stderr(), "oracle: {message}");
}

fn main() -> ExitCode {
    let arguments: Vec<OsString> = std::env::args_os().skip(1).collect();
    match commands::run(&arguments) {
        Ok(()) => ExitCode::SUCCESS,
        Err(Failure::Usage(message)) => {
            tell(&message);
            ExitCode::from(2)
        }
        Err(Failure::Stream(error)) => {
            if error.kind() != io::ErrorKind::BrokenPipe {
                tell(&error.to_string());
            }
            ExitCode::from(1)
        }
        Err(Failure::Fault) => ExitCode::from(1),
    }
}
