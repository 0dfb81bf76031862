//! The desk program over many lines of one ending.

use std::fs::{self, File};
use std::path::Path;
use std::process::{Command, Output, Stdio};

use sledgewren::{Man, Side, Square};

use crate::positions::{man_of, of_ending, shuffled};
use crate::timing::{medians, timed_program, Of, Row};

pub const LINES: usize = 100_000;

/// A square's name; those of legal positions are all on the board.
fn name(code: u8) -> String {
    Square::from_code(code).map_or(String::new(), |square| square.to_string())
}

/// The first legal positions of a shuffled ending, as the desk reads them.
fn lines(man: Man) -> String {
    let mut text = String::new();
    for keyed in shuffled(of_ending(man)).into_iter().take(LINES) {
        let side = Side::from_code(keyed.side).map_or(' ', Side::letter);
        let squares = [keyed.white_king, man_of(keyed).1, keyed.black_king].map(name);
        text += &format!("{} {side} {}\n", man.letter(), squares.join(" "));
    }
    text
}

fn run(words: &[&str], input: &Path) -> Result<Output, String> {
    let told = |error| format!("{}: {error}", words.join(" "));
    let file = File::open(input).map_err(told)?;
    let mut command = Command::new(words[0]);
    command.args(&words[1..]).stdin(file).stderr(Stdio::inherit());
    command.output().map_err(told)
}

/// From start to end of the program, its fill included.
pub fn row(desk: &str, oracle: &str, folder: &Path, repeats: usize) -> Result<Row, String> {
    let input = folder.join("lines");
    fs::write(&input, lines(Man::Queen))
        .map_err(|error| format!("{}: {error}", input.display()))?;
    let programs: [&[&str]; 2] = [&[desk], &[oracle, "desk"]];
    let outputs = [run(programs[0], &input)?, run(programs[1], &input)?];
    if outputs[0].stdout != outputs[1].stdout {
        return Err("the two desks differ".to_string());
    }
    let timed_run = |words: &[&str]| timed_program(|| drop(run(words, &input)));
    let (library, other) = medians(repeats, || timed_run(programs[0]), || timed_run(programs[1]));
    let what = format!("desk program, {LINES} lines, queen");
    Ok(Row { what, library, beside: "oracle's desk", other, of: Of::Whole, goal: Some(1.0) })
}
