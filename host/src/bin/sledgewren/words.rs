//! Words for values, and a command's words.

use sledgewren::{Answer, Ending, Man, Side, Value};

use crate::failure::Failure;

fn counted(count: u8, one: &str, more: &str) -> String {
    format!("{count} {}", if count == 1 { one } else { more })
}

/// `10 moves (19 plies)`: moves are those of the side that mates.
pub fn moves_and_plies(plies: u8) -> String {
    let (moves, plies) = (plies.div_ceil(2), counted(plies, "ply", "plies"));
    format!("{} ({plies})", counted(moves, "move", "moves"))
}

/// What the answer says of a position.
pub fn value(side: Side, answer: Answer) -> String {
    let other = side.other();
    match answer.value() {
        Value::Win(depth) => format!("{side} wins: mate in {}", moves_and_plies(depth)),
        Value::Loss(0) => format!("checkmate: {other} has won"),
        Value::Loss(depth) => {
            format!("{other} wins: {side} is mated in {}", moves_and_plies(depth))
        }
        Value::Draw if answer.best().is_none() => "stalemate: a draw".to_string(),
        Value::Draw => "a draw".to_string(),
    }
}

/// The desk's letter of a king.
pub fn king(side: Side) -> char {
    match side {
        Side::White => 'K',
        Side::Black => 'k',
    }
}

/// FEN's letter of a pawn.
pub fn pawn(side: Side) -> char {
    match side {
        Side::White => 'P',
        Side::Black => 'p',
    }
}

/// The words, where there are no options.
pub fn plain(words: &[String]) -> Result<Vec<String>, Failure> {
    match words.iter().find(|word| word.starts_with("--")) {
        Some(word) => Err(Failure::Usage(format!("there is no option {word}"))),
        None => Ok(words.to_vec()),
    }
}

/// Whether `--NAME` is among the words, and the others.
pub fn flag(words: &[String], name: &str) -> (bool, Vec<String>) {
    let option = format!("--{name}");
    let rest: Vec<String> = words.iter().filter(|&word| *word != option).cloned().collect();
    (rest.len() < words.len(), rest)
}

/// `--NAME VALUE` taken out of the words, and the others, which have no options.
pub fn option(words: &[String], name: &str) -> Result<(Option<String>, Vec<String>), Failure> {
    let (found, rest) = first_option(words, name)?;
    Ok((found, plain(&rest)?))
}

/// The same where other options may be left.
pub fn first_option(
    words: &[String],
    name: &str,
) -> Result<(Option<String>, Vec<String>), Failure> {
    let (mut found, mut rest) = (None, Vec::new());
    let mut words = words.iter();
    while let Some(word) = words.next() {
        if word == name {
            let value =
                words.next().ok_or(Failure::Usage(format!("{name} needs a word after it")))?;
            if found.replace(value.clone()).is_some() {
                return Err(Failure::Usage(format!("{name} is given twice")));
            }
        } else {
            rest.push(word.clone());
        }
    }
    Ok((found, rest))
}

/// An ending by its name, as KQK or KQKR, or one man by his letter or name; a pawn too.
pub fn ending(word: &str) -> Result<Ending, Failure> {
    match word.parse::<Ending>() {
        Ok(ending) => Ok(ending),
        Err(_) if matches!(word, "P" | "pawn") => Ok(Ending::PAWN),
        Err(_) => Ok(Ending::one(man(word)?)),
    }
}

/// A man by his letter or name.
pub fn man(word: &str) -> Result<Man, Failure> {
    word.parse().map_err(|wrong| Failure::Usage(format!("{wrong}")))
}

#[cfg(test)]
mod tests {
    use super::*;

    #[test]
    fn plies_in_moves() {
        assert_eq!(moves_and_plies(1), "1 move (1 ply)");
        assert_eq!(moves_and_plies(2), "1 move (2 plies)");
        assert_eq!(moves_and_plies(19), "10 moves (19 plies)");
        assert_eq!(moves_and_plies(20), "10 moves (20 plies)");
    }
}
