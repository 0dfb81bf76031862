//! Running a desk over an input.

use std::fs::File;
use std::io::{self, Write};
use std::path::Path;
use std::process::{Command, Stdio};

/// Seconds after which a desk that has not ended is stopped.
const PATIENCE: &str = "900";

/// A desk and the words that start it.
pub struct Desk {
    pub words: Vec<String>,
}

/// What a desk wrote, and whether it ended well.
#[derive(PartialEq, Eq)]
pub struct Run {
    pub output: Vec<u8>,
    pub success: bool,
}

impl Desk {
    fn command(&self) -> Command {
        let mut command = Command::new("timeout");
        command.arg(PATIENCE).args(&self.words).stderr(Stdio::inherit());
        command
    }

    fn told(&self, error: io::Error) -> String {
        format!("{}: {error}", self.words.join(" "))
    }

    /// The input from a file.
    pub fn on_file(&self, path: &Path) -> Result<Run, String> {
        let input = File::open(path).map_err(|error| format!("{}: {error}", path.display()))?;
        let run = self.command().stdin(input).output().map_err(|error| self.told(error))?;
        Ok(Run { output: run.stdout, success: run.status.success() })
    }

    /// The input through a pipe, in parts of the sizes given, over and over.
    pub fn on_pipe(&self, input: &[u8], sizes: &[usize]) -> Result<Run, String> {
        let mut command = self.command();
        command.stdin(Stdio::piped()).stdout(Stdio::piped());
        let mut child = command.spawn().map_err(|error| self.told(error))?;
        let pipe = child.stdin.take();
        let run = std::thread::scope(|scope| {
            scope.spawn(move || pipe.map(|pipe| write_parts(pipe, input, sizes)));
            child.wait_with_output()
        });
        let run = run.map_err(|error| self.told(error))?;
        Ok(Run { output: run.stdout, success: run.status.success() })
    }
}

/// A desk that ends early closes the pipe: what it wrote then tells.
fn write_parts(mut pipe: impl Write, mut input: &[u8], sizes: &[usize]) -> io::Result<()> {
    for &size in sizes.iter().cycle() {
        if input.is_empty() {
            break;
        }
        let (part, rest) = input.split_at(size.min(input.len()));
        pipe.write_all(part)?;
        input = rest;
    }
    Ok(())
}

/// The first line, counted from 1, in which two outputs differ.
pub fn first_difference(one: &[u8], other: &[u8]) -> usize {
    let mut lines = one.split(|&byte| byte == b'\n').zip(other.split(|&byte| byte == b'\n'));
    lines.position(|(one, other)| one != other).map_or(0, |place| place + 1)
}

/// How many lines an input has; the last may lack its newline.
pub fn line_count(input: &[u8]) -> usize {
    input.split_inclusive(|&byte| byte == b'\n').count()
}
