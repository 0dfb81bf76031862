//! The tool `sledgewren`: rules on positions, makes and judges table files, and plays. It prints
//! and parses; the chess is the library's.

mod board;
mod failure;
mod fen;
mod files;
mod game;
mod help;
mod play;
mod progress;
mod rule;
mod tables;
mod words;

use std::env;
use std::io::{self, Write};
use std::process::ExitCode;

use failure::{Done, Failure};

/// A subcommand's work: its arguments and the output.
type Work = fn(&[String], &mut dyn Write) -> Done;

const COMMANDS: [(&str, Work); 7] = [
    ("rule", rule::run),
    ("fill", tables::fill),
    ("check", tables::check),
    ("pack", tables::pack),
    ("tally", tables::tally),
    ("set", tables::set),
    ("play", play::run),
];

fn run(arguments: &[String], out: &mut dyn Write) -> Done {
    let asks_help = |word: &String| word == "-h" || word == "--help";
    let Some((first, rest)) = arguments.split_first() else {
        return Err(Failure::Usage("give a command".into()));
    };
    match first.as_str() {
        "-h" | "--help" => return Ok(out.write_all(help::all().as_bytes())?),
        "--version" => return Ok(writeln!(out, "sledgewren {}", env!("CARGO_PKG_VERSION"))?),
        "--man" => return Ok(out.write_all(help::man_page().as_bytes())?),
        _ => {}
    }
    let Some((name, work)) = COMMANDS.into_iter().find(|(name, _)| name == first) else {
        return Err(Failure::Usage(format!("there is no command {first:?}")));
    };
    if rest.iter().any(asks_help) {
        return Ok(out.write_all(help::of(name).as_bytes())?);
    }
    work(rest, out).map_err(|failure| failure.in_command(name))
}

/// A message on standard error; if even that is closed there is nobody to tell.
fn tell(message: &str) {
    let _ = writeln!(io::stderr(), "sledgewren: {message}");
}

fn main() -> ExitCode {
    let arguments: Vec<String> =
        env::args_os().skip(1).map(|word| word.to_string_lossy().into_owned()).collect();
    let mut out = io::stdout().lock();
    let done = run(&arguments, &mut out).and_then(|()| Ok(out.flush()?));
    match done {
        Ok(()) => ExitCode::SUCCESS,
        Err(Failure::Refused(words)) => {
            // What was answered before stays in its place.
            match out.flush() {
                Ok(()) => tell(&words),
                Err(error) => tell(&format!("cannot write: {error}")),
            }
            ExitCode::from(1)
        }
        Err(Failure::Output(error)) if error.kind() == io::ErrorKind::BrokenPipe => {
            ExitCode::from(141)
        }
        Err(Failure::Output(error)) => {
            tell(&format!("cannot write: {error}"));
            ExitCode::from(1)
        }
        Err(Failure::Usage(words)) => {
            tell(&words);
            tell("`sledgewren --help` tells the usage");
            ExitCode::from(2)
        }
    }
}
