//! `play`: one side against the desk, each move answered, to the end.

use std::io::{self, BufRead, Write};

use sledgewren::{
    entry, Accepted, Ending, FourTables, Keyed, Move, Position, Refusal, Side, Value,
};

use crate::failure::{Done, Failure};
use crate::game::Tables;
use crate::{board, fen, game, progress, tables, words};

const DEFAULT: &str = "R w e3 h1 e5";

/// The side to move of a position that the library has taken.
fn side(position: Keyed) -> Side {
    Side::from_code(position.side).unwrap_or(Side::White)
}

/// A line of the desk; with a pawn, FEN.
fn name(position: Keyed) -> String {
    let line = Position::keyed(position).map(|position| position.to_string());
    line.unwrap_or_else(|| fen::written(position))
}

/// The legal move that a player's text means: `h2g1`, `h2xg1` or `Qg1`, with or without `x`, `+`,
/// `#` and `=`.
fn meant(position: Keyed, text: &str) -> Result<Option<Move>, Failure> {
    let bare = |text: &str| text.replace(['x', '+', '#', '-', '='], "");
    for &chosen in &entry::moves(position)? {
        let forms = [chosen.to_string(), game::san(position, chosen)?];
        if forms.iter().any(|form| bare(form) == bare(text)) {
            return Ok(Some(chosen));
        }
    }
    Ok(None)
}

/// What a player typed: a move, or none where he leaves.
fn asked(
    position: Keyed,
    input: &mut dyn BufRead,
    out: &mut dyn Write,
) -> Result<Option<Move>, Failure> {
    loop {
        write!(out, "{}> ", side(position))?;
        out.flush()?;
        let mut text = String::new();
        let count = input
            .read_line(&mut text)
            .map_err(|error| Failure::Refused(format!("cannot read: {error}")))?;
        match text.trim() {
            _ if count == 0 => return Ok(None),
            "quit" => return Ok(None),
            "" => continue,
            "board" => writeln!(out, "{}", board::text(position))?,
            "moves" => {
                let moves = entry::moves(position)?;
                let list: Result<Vec<String>, _> =
                    moves.iter().map(|chosen| game::san(position, *chosen)).collect();
                writeln!(out, "{}", list?.join(" "))?;
            }
            text => match meant(position, text)? {
                Some(chosen) => return Ok(Some(chosen)),
                None => writeln!(out, "{text} is not a legal move; try `moves` or `quit`")?,
            },
        }
    }
}

/// The word at the end, or none while the game goes on.
fn end(tables: &Tables, position: Keyed) -> Result<Option<String>, Failure> {
    let answer = tables.look_up(position)?;
    Ok(answer.best().is_none().then(|| words::value(side(position), answer)))
}

fn game(
    tables: &Tables,
    player: Side,
    mut position: Keyed,
    input: &mut dyn BufRead,
    out: &mut dyn Write,
) -> Done {
    writeln!(out, "{}", board::text(position))?;
    loop {
        if let Some(words) = end(tables, position)? {
            return Ok(writeln!(out, "{words}")?);
        }
        let (answer, mover) = (tables.look_up(position)?, side(position));
        let chosen = if mover == player { asked(position, input, out)? } else { answer.best() };
        let Some(chosen) = chosen else {
            let words = words::value(mover, answer);
            return Ok(writeln!(out, "\nleft at {}: {words}", name(position))?);
        };
        let san = game::san(position, chosen)?;
        if mover != player {
            writeln!(out, "{mover} (desk): {san} ({chosen})")?;
        }
        match position.play(chosen)? {
            Some(Keyed { men: [None, None], .. }) => {
                return Ok(writeln!(out, "{san}: bare kings, a draw")?);
            }
            Some(next) => position = next,
            // Moves come from the library's list or its look-up.
            None => return Err(Failure::Refused(format!("{chosen} is not legal"))),
        }
        if side(position) == player {
            writeln!(out, "{}", board::text(position))?;
            if let Value::Win(depth) | Value::Loss(depth @ 1..) = tables.look_up(position)?.value()
            {
                writeln!(out, "mate in {} with best play", words::moves_and_plies(depth))?;
            }
        }
    }
}

fn greeted(tables: &Tables, player: Side, position: Keyed, out: &mut dyn Write) -> Done {
    writeln!(out, "You are {player}. Type a move (h2g1 or Qg1), moves, board or quit.\n")?;
    game(tables, player, position, &mut io::stdin().lock(), out)
}

pub fn run(words: &[String], out: &mut dyn Write) -> Done {
    let (asked, rest) = words::option(words, "--side")?;
    let text = if rest.is_empty() { DEFAULT.to_string() } else { rest.join(" ") };
    let asked = asked.map(|side| side.parse::<Side>()).transpose();
    let asked = asked.map_err(|wrong| Failure::Usage(format!("{wrong}")))?;
    let position = fen::read(&text)?.one()?;
    entry::count(position)?;
    let player = asked.unwrap_or(side(position));
    let ending = Ending::of(position).ok_or(Refusal::BadMan)?;
    match ending.only() {
        Some(man) => {
            let table = Accepted::filled(man)?;
            greeted(&Tables::One(&table), player, position, out)
        }
        None => {
            let four = FourTables::filled()?;
            let table = tables::filled_pawn(&four, progress::at_once)?.0;
            greeted(&Tables::Pawn(&table), player, position, out)
        }
    }
}
