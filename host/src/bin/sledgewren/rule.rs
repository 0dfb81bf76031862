//! `rule`: one position, judged.

use std::io::Write;

use sledgewren::{entry, Position, Refusal, Side, Value, MOST_PLIES};
use sledgewren::{second_opinion, Accepted, Answer, Ending, FourTables, Keyed, Opinion};

use crate::failure::{Done, Failure};
use crate::fen::{self, Read};
use crate::game::{self, Tables};
use crate::{board, files, progress, tables, words};

/// The second opinion beside the table's answer. That they agree is proved; if they did not, the
/// linked library would not be the proved one.
fn opinion(position: Position, answer: Answer) -> Result<String, Failure> {
    let found = second_opinion(position, MOST_PLIES)?;
    if found != Opinion::of(answer.value(), MOST_PLIES) {
        let words = format!("the search says {found} and the table {}", answer.value());
        return Err(Failure::Refused(format!("{words}: this is not the proved library")));
    }
    Ok(match (found, answer.value()) {
        (Opinion::NotWithin, Value::Draw) => format!("no mate within {MOST_PLIES} plies"),
        (Opinion::NotWithin, _) => format!("does not reach: it goes {MOST_PLIES} plies deep"),
        (found, _) => format!("{found}, the same"),
    })
}

/// What FEN's halfmove clock means for the answer.
fn fifty(tables: &Tables, keyed: Keyed, clock: u32) -> Result<String, Failure> {
    match tables.look_up_at(keyed, clock) {
        Ok(marked) if marked.answer.depth().is_none() => Ok("a draw, whatever the count".into()),
        Ok(_) if Ending::of(keyed) == Some(Ending::PAWN) => Ok("not told with a pawn".into()),
        Ok(marked) => Ok(format!("{marked} ({clock})")),
        Err(Refusal::TooManyQuiet) => Ok(format!("{}: {clock}", Refusal::TooManyQuiet)),
        Err(refusal) => Err(refusal.into()),
    }
}

/// What was asked: the position's text, the picture's file, and a file with its table.
struct Asked {
    text: String,
    svg: Option<String>,
    table: Option<String>,
}

fn arguments(arguments: &[String]) -> Result<Asked, Failure> {
    let (svg, rest) = words::first_option(arguments, "--svg")?;
    let (table, rest) = words::option(&rest, "--table")?;
    if rest.is_empty() {
        return Err(Failure::Usage("give a position, as FEN or as a line of the desk".into()));
    }
    Ok(Asked { text: rest.join(" "), svg, table })
}

/// What is told of one man alone: the search, the desk's slip and the number as it is typed.
fn alone(out: &mut dyn Write, position: Position, answer: Answer) -> Done {
    writeln!(out, "search:   {}", opinion(position, answer)?)?;
    writeln!(out, "slip:     {answer}")?;
    let typed = position.typed()?;
    let whose = match position.owner {
        Side::White => "",
        Side::Black => ", which the exchange of colours keeps",
    };
    Ok(writeln!(out, "number:   {}, typed {}{whose}", typed.number(), typed.line(position.man))?)
}

fn told(out: &mut dyn Write, read: &Read, side: Side, tables: &Tables, answer: Answer) -> Done {
    let keyed = read.keyed;
    let one = Position::keyed(keyed);
    writeln!(out, "{}", board::text(keyed))?;
    match one {
        Some(position) => writeln!(out, "position: {position}, {side} to move")?,
        None => writeln!(out, "position: {side} to move")?,
    }
    writeln!(out, "FEN:      {}", fen::written(keyed))?;
    writeln!(out, "value:    {}", words::value(side, answer))?;
    if let Some(best) = answer.best() {
        writeln!(out, "best:     {} ({best})", game::san(keyed, best)?)?;
    }
    if answer.depth().is_some_and(|depth| depth > 0) {
        let moves = game::line(tables, keyed)?;
        writeln!(out, "line:     {}", game::numbered(side, &moves))?;
    }
    match (one, Ending::of(keyed)) {
        (Some(position), _) => alone(out, position, answer)?,
        (None, Some(ending)) => writeln!(out, "number:   {} of {ending}", entry::number(keyed)?)?,
        (None, None) => {}
    }
    if let Some(clock) = read.clock {
        writeln!(out, "fifty:    {}", fifty(tables, keyed, clock)?)?;
    }
    Ok(())
}

fn ruled(out: &mut dyn Write, read: &Read, asked: &Asked, tables: &Tables) -> Done {
    let answer = tables.look_up(read.keyed)?;
    let side = Side::from_code(read.keyed.side).unwrap_or(Side::White);
    if let Some(path) = &asked.svg {
        let one = Position::keyed(read.keyed).map(|position| position.to_string());
        let name = one.unwrap_or_else(|| fen::written(read.keyed));
        let words = words::value(side, answer);
        files::replace(path, board::svg(read.keyed, &name, answer.best(), &words).as_bytes())?;
    }
    told(out, read, side, tables, answer)
}

pub fn run(words: &[String], out: &mut dyn Write) -> Done {
    let asked = arguments(words)?;
    let read = fen::read(&asked.text)?;
    // Refusals 4, 5 and 6 before a table is filled.
    entry::count(read.keyed)?;
    let ending = Ending::of(read.keyed).ok_or(Refusal::BadMan)?;
    let file = asked.table.as_deref();
    match (ending.first(), ending.second()) {
        (Some(man), None) => {
            let table = match file {
                Some(path) => tables::accepted(man, path)?,
                None => Accepted::filled(man)?,
            };
            ruled(out, &read, &asked, &Tables::One(&table))
        }
        (Some(first), Some(second)) => {
            let (first, second) = (Accepted::filled(first)?, Accepted::filled(second)?);
            let four = match file {
                Some(path) => tables::accepted_two(ending, &first, &second, path)?,
                None => tables::filled_two(ending, &first, &second, progress::at_once)?.0,
            };
            ruled(out, &read, &asked, &Tables::Two(&four))
        }
        (None, _) => {
            let four = FourTables::filled()?;
            let table = match file {
                Some(path) => tables::accepted_pawn(&four, path)?,
                None => tables::filled_pawn(&four, progress::at_once)?.0,
            };
            ruled(out, &read, &asked, &Tables::Pawn(&table))
        }
    }
}
