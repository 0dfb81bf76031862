//! Adjudicates a position, by its table and by a search without one, and plays it out with the
//! table's moves on both sides. A number after the position is the plies since the last capture.
//!
//!     cargo run --example adjudicate -- R w e3 h1 e5 77

use std::env;
use std::error::Error;
use std::process::ExitCode;

use sledgewren::MOST_PLIES;
use sledgewren::{second_opinion, Accepted, Opinion, Played, Position, Table};

const DEFAULT: &str = "Q w b3 g6 d1";

/// The second opinion, as deep as it may be asked for.
fn searched(position: Position) -> Result<String, Box<dyn Error>> {
    match second_opinion(position, MOST_PLIES)? {
        Opinion::NotWithin => Ok(format!("not within {MOST_PLIES} plies")),
        found => Ok(found.to_string()),
    }
}

/// The moves that the table gives, up to mate, stalemate, bare kings or so many plies.
fn line(table: &Accepted, mut position: Position, plies: usize) -> Result<String, Box<dyn Error>> {
    let mut text = String::new();
    for _ in 0..plies {
        let answer = table.look_up(position)?;
        let Some(best) = answer.best() else { return Ok(text + &format!("{answer}")) };
        text += &format!("{best} ");
        match position.play(best)? {
            Played::At(next) => position = next,
            Played::BareKings { .. } => return Ok(text + "bare kings"),
            Played::NotLegal => return Err(format!("{best} is not legal").into()),
        }
    }
    Ok(text + "...")
}

fn adjudicate() -> Result<(), Box<dyn Error>> {
    let words: Vec<String> = env::args().skip(1).collect();
    let mut words = words;
    let plies = if words.len() > DEFAULT.split(' ').count() { words.pop() } else { None };
    let plies = plies.map_or(Ok(0), |plies| plies.parse::<u32>())?;
    let text = if words.is_empty() { DEFAULT.to_string() } else { words.join(" ") };
    let position: Position = text.parse()?;
    let (typed, count) = (position.typed()?, position.count()?);
    println!("{position} is number {}, typed {typed}, {count} moves", typed.number());
    let mut table = Table::zeroed();
    match table.fill(position.man)? {
        Some(depth) => println!("{}: greatest depth {depth}", position.man),
        None => println!("{}: no position is decided", position.man),
    }
    let table = table.accept(position.man)?;
    let marked = table.look_up_at(position, plies)?;
    println!("{position}: {}; without a table: {}", marked.answer, searched(position)?);
    println!("{plies} plies since the last capture: {marked}");
    println!("play: {}", line(&table, position, 40)?);
    Ok(())
}

fn main() -> ExitCode {
    match adjudicate() {
        Ok(()) => ExitCode::SUCCESS,
        Err(error) => {
            eprintln!("adjudicate: {error}");
            ExitCode::from(1)
        }
    }
}
