//! Writes the four endings' tables as one file, reads it back and looks a position up in it.
//!
//!     cargo run --release --example sets -- FILE Q w b3 h2 a1

use std::env;
use std::error::Error;
use std::fs;
use std::process::ExitCode;

use sledgewren::{Choice, Man, Position, Set};

fn told(man: Man, greatest: Option<u8>) {
    match greatest {
        Some(depth) => println!("{man}: greatest depth {depth}"),
        None => println!("{man}: no position is decided"),
    }
}

fn run() -> Result<(), Box<dyn Error>> {
    let words: Vec<String> = env::args().skip(1).collect();
    let (path, keyed) = words.split_first().ok_or("give a file and a position")?;
    let position: Position = keyed.join(" ").parse()?;
    fs::write(path, Set::written_by_endings(Choice::ALL, told)?.bytes())?;
    let set = Set::from_bytes(fs::read(path)?)?;
    println!("{path}: {} bytes, {} endings", set.bytes().len(), set.choice().men().count());
    println!("{position}: {}", set.look_up(position)?);
    Ok(())
}

fn main() -> ExitCode {
    match run() {
        Ok(()) => ExitCode::SUCCESS,
        Err(error) => {
            eprintln!("sets: {error}");
            ExitCode::from(1)
        }
    }
}
