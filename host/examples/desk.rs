//! The desk program over this crate: standard input line by line, slips on standard output.
//!
//!     cargo run --release --example desk <lines

use std::io::{self, ErrorKind};
use std::process::ExitCode;

use sledgewren::Desk;

fn main() -> ExitCode {
    match Desk::new().run(io::stdin().lock(), io::stdout().lock()) {
        Ok(()) => ExitCode::SUCCESS,
        Err(error) if error.kind() == ErrorKind::BrokenPipe => ExitCode::from(1),
        Err(error) => {
            eprintln!("desk: {error}");
            ExitCode::from(1)
        }
    }
}
