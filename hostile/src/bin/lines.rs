//! Feeds two desks the same generated lines and compares what they write, byte for byte.
//!
//! usage: lines DESK ORACLE FOLDER [SEED]

use std::fs;
use std::path::Path;
use std::process::ExitCode;

use hostile::feed::{first_difference, line_count, Desk, Run};
use hostile::lines::{Input, FULL, SHORT, TINY};

const SEED: u64 = 2049;

/// Sizes of the parts in which the short input comes through a pipe.
const PARTS: [&[usize]; 3] = [&[1], &[1, 2, 3, 5, 7, 11, 13], &[4096, 1, 65_535]];

/// Lines compared, and inputs whose outputs differ.
#[derive(Default)]
struct Sum {
    lines: usize,
    differ: usize,
}

impl Sum {
    fn add(&mut self, name: &str, lines: usize, desk: Run, oracle: Run) {
        self.lines += lines;
        if desk == oracle && desk.success {
            return;
        }
        self.differ += 1;
        let line = first_difference(&desk.output, &oracle.output);
        let (ours, theirs) = (desk.output.len(), oracle.output.len());
        println!("{name}: outputs of {ours} and {theirs} bytes, first unlike in line {line}");
        println!("{name}: ended well: desk {}, oracle {}", desk.success, oracle.success);
    }
}

fn feed_file(desks: &[Desk; 2], folder: &Path, seed: u64, sum: &mut Sum) -> Result<(), String> {
    let input = Input::generate(seed, &FULL);
    let path = folder.join("lines");
    fs::write(&path, &input.bytes).map_err(|error| format!("{}: {error}", path.display()))?;
    println!("{} lines, {} bytes, from a file", input.lines, input.bytes.len());
    sum.add("file", input.lines, desks[0].on_file(&path)?, desks[1].on_file(&path)?);
    Ok(())
}

fn feed_pipes(desks: &[Desk; 2], seed: u64, sum: &mut Sum) -> Result<(), String> {
    let input = Input::generate(seed + 1, &SHORT);
    for sizes in PARTS {
        // A byte at a time, the long lines at the end would take minutes.
        let few = &input.bytes[..input.bytes.len().min(300_000 * sizes.iter().max().unwrap_or(&1))];
        let lines = line_count(few);
        println!("{lines} lines, {} bytes, through a pipe in parts of {sizes:?}", few.len());
        sum.add("pipe", lines, desks[0].on_pipe(few, sizes)?, desks[1].on_pipe(few, sizes)?);
    }
    println!("{} inputs of a few bytes", TINY.len());
    for input in TINY {
        let lines = line_count(input);
        let name = format!("{:?}", String::from_utf8_lossy(input));
        sum.add(&name, lines, desks[0].on_pipe(input, &[64])?, desks[1].on_pipe(input, &[64])?);
    }
    Ok(())
}

fn compare(words: &[String]) -> Result<Sum, String> {
    let (desk, oracle, folder, seed) = match words {
        [desk, oracle, folder] => (desk, oracle, folder, SEED),
        [desk, oracle, folder, seed] => {
            (desk, oracle, folder, seed.parse().map_err(|_| "the seed is a number")?)
        }
        _ => return Err("usage: lines DESK ORACLE FOLDER [SEED]".to_string()),
    };
    println!("seed {seed}");
    let desks = [
        Desk { words: vec![desk.clone()] },
        Desk { words: vec![oracle.clone(), "desk".to_string()] },
    ];
    let mut sum = Sum::default();
    feed_file(&desks, Path::new(folder), seed, &mut sum)?;
    feed_pipes(&desks, seed, &mut sum)?;
    Ok(sum)
}

fn main() -> ExitCode {
    let words: Vec<String> = std::env::args().skip(1).collect();
    match compare(&words) {
        Ok(Sum { lines, differ }) => {
            println!("{lines} lines compared, {differ} inputs differ");
            ExitCode::from((differ > 0) as u8)
        }
        Err(message) => {
            eprintln!("lines: {message}");
            ExitCode::from(2)
        }
    }
}
