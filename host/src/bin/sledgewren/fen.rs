//! A position from FEN or from a line of the desk.

use sledgewren::{Desk, Keyed, KeyedMan, Man, Position, Refusal, Side, Square};

use crate::failure::Failure;

/// A position that was read, with one man or two, and FEN's halfmove clock: the plies since the
/// last capture.
pub struct Read {
    pub keyed: Keyed,
    pub clock: Option<u32>,
}

impl Read {
    /// With one man; two are refused 1.
    pub fn one(&self) -> Result<Keyed, Failure> {
        match self.keyed.men {
            [Some(_), None] => Ok(self.keyed),
            _ => Err(refused(Refusal::BadMan, "there are two men, and this serves one")),
        }
    }
}

fn refused(refusal: Refusal, words: &str) -> Failure {
    Failure::Refused(format!("{refusal}: {words}"))
}

/// FEN has slashes; all else is a line of the desk.
pub fn read(text: &str) -> Result<Read, Failure> {
    if text.contains('/') {
        from_fen(text)
    } else {
        Ok(Read { keyed: from_line(text)?.into(), clock: None })
    }
}

/// What people meet behind refusal 12.
fn cause(line: &str) -> Option<&'static str> {
    let number = line.split_once("# ").is_some_and(|(_, digits)| digits.len() < 7);
    [
        (line.contains('\r'), "the line ends in CR LF"),
        (line.contains('\t'), "there is a tab; one blank stands between two words"),
        (line.contains("  "), "there are two blanks; one stands between two words"),
        (line.starts_with(' ') || line.ends_with(' '), "there is a blank at the start or the end"),
        (number, "the number has not its five digits and two check digits"),
        (line.trim().is_empty(), "the line is empty"),
    ]
    .into_iter()
    .find_map(|(is, words)| is.then_some(words))
}

/// The desk itself tells what a line is: a refusal, the position of a number, or a value.
fn from_line(line: &str) -> Result<Position, Failure> {
    let slip = Desk::new().answer(line.as_bytes()).text().to_string();
    if let Some(code) = slip.strip_prefix("refused ").and_then(|code| code.parse().ok()) {
        let refusal = Refusal::from_code(code);
        let words = refusal.map_or(slip, |refusal| refusal.to_string());
        let cause = cause(line).filter(|_| refusal == Some(Refusal::BadLine));
        let why = cause.map_or(String::new(), |cause| format!(": {cause}"));
        return Err(Failure::Refused(words + &why));
    }
    let keyed = match line.split_once(" # ") {
        Some((man, _)) => format!("{man} {slip}"),
        None => line.to_string(),
    };
    keyed.parse().map_err(|wrong| Failure::Refused(format!("{wrong}")))
}

/// What stands on the board, rank by rank from the eighth.
fn placed(text: &str) -> Result<Vec<(char, Square)>, Failure> {
    let wrong = |words: String| Failure::Refused(format!("not FEN: {words}"));
    let ranks: Vec<&str> = text.split('/').collect();
    if ranks.len() != 8 {
        return Err(wrong(format!("{} ranks, and a board has 8", ranks.len())));
    }
    let mut found = Vec::new();
    for (row, rank) in ranks.iter().enumerate() {
        let mut file = 0;
        for letter in rank.chars() {
            match letter {
                '1'..='8' => file += letter as usize - '0' as usize,
                'K' | 'Q' | 'R' | 'B' | 'N' | 'P' | 'k' | 'q' | 'r' | 'b' | 'n' | 'p' => {
                    let code = 8 * (7 - row) + file;
                    let square = (file < 8).then(|| Square::from_code(code as u8)).flatten();
                    found
                        .push((letter, square.ok_or(wrong(format!("rank {rank:?} is too long")))?));
                    file += 1;
                }
                _ => return Err(wrong(format!("{letter:?} is no piece and no count"))),
            }
        }
        if file != 8 {
            return Err(wrong(format!("rank {rank:?} has {file} squares")));
        }
    }
    Ok(found)
}

/// The square of the one king with this letter.
fn king(found: &[(char, Square)], letter: char, name: &str) -> Result<Square, Failure> {
    let squares: Vec<Square> =
        found.iter().filter(|(piece, _)| *piece == letter).map(|(_, square)| *square).collect();
    match squares[..] {
        [square] => Ok(square),
        _ => Err(Failure::Refused(format!("{} {name} kings, and there is one", squares.len()))),
    }
}

/// The man of a letter on a square.
fn man_of(&(letter, at): &(char, Square)) -> KeyedMan {
    let owner = if letter.is_ascii_uppercase() { Side::White } else { Side::Black };
    let piece = Man::ALL.into_iter().find(|man| man.letter_of(owner) == letter);
    let kind = piece.map_or(KeyedMan::PAWN, Man::code);
    KeyedMan { kind, colour: owner.code(), square: at.code() }
}

/// One man or two; no man, more than two, and a pawn with a second man have no table.
fn keyed_men(men: &[(char, Square)]) -> Result<[Option<KeyedMan>; 2], Failure> {
    match men {
        [one] => Ok([Some(man_of(one)), None]),
        [one, two] => {
            if let Some((_, at)) =
                [one, two].into_iter().find(|(letter, _)| matches!(letter, 'P' | 'p'))
            {
                let words = format!("there is a pawn on {at}, and he is served alone");
                return Err(refused(Refusal::BadMan, &words));
            }
            Ok([Some(man_of(one)), Some(man_of(two))])
        }
        [] => Err(refused(Refusal::BadMan, "there is none")),
        _ => {
            let listed: Vec<String> =
                men.iter().map(|(letter, at)| format!("{letter}{at}")).collect();
            let words = format!("there are {}: {}", men.len(), listed.join(" "));
            Err(refused(Refusal::BadMan, &words))
        }
    }
}

/// Whether a lone pawn went two squares and passed this one: nobody can take him there, so that
/// the square changes nothing.
fn passed(square: &str, men: [Option<KeyedMan>; 2]) -> bool {
    let [Some(KeyedMan { kind: KeyedMan::PAWN, colour, square: at }), None] = men else {
        return false;
    };
    let behind = match (colour, at / 8) {
        (0, 3) => at - 8,
        (1, 4) => at + 8,
        _ => return false,
    };
    Square::from_code(behind).is_some_and(|behind| behind.to_string() == square)
}

/// Castling and en passant would change what may be played, so they are refused, but behind a lone
/// pawn. The halfmove clock is handed on.
fn extras(fields: &[&str], men: [Option<KeyedMan>; 2]) -> Result<Option<u32>, Failure> {
    if let Some(castling) = fields.first().filter(|castling| **castling != "-") {
        let words = "not ruled: FEN gives castling rights";
        let advice = "the tables know no castling; write - if nobody may castle";
        return Err(Failure::Refused(format!("{words} ({castling}), and {advice}")));
    }
    if let Some(square) = fields.get(1).filter(|&&square| square != "-" && !passed(square, men)) {
        let words = "not ruled: FEN gives an en-passant square";
        let why = "and no pawn went past it and can be taken";
        return Err(Failure::Refused(format!("{words} ({square}), {why}")));
    }
    let mut clock = None;
    for (place, name) in [(2, "halfmove clock"), (3, "move number")] {
        let Some(text) = fields.get(place) else { continue };
        let number: u32 = text
            .parse()
            .map_err(|_| Failure::Refused(format!("not FEN: the {name} {text:?} is no number")))?;
        if place == 2 {
            clock = Some(number);
        }
    }
    if fields.len() > 4 {
        return Err(Failure::Refused("not FEN: more than six fields".into()));
    }
    Ok(clock)
}

fn from_fen(text: &str) -> Result<Read, Failure> {
    let fields: Vec<&str> = text.split(' ').collect();
    let [board, side, rest @ ..] = &fields[..] else {
        return Err(Failure::Refused("not FEN: the side to move is missing".into()));
    };
    let found = placed(board)?;
    let side: Side = side.parse().map_err(|wrong| Failure::Refused(format!("not FEN: {wrong}")))?;
    let (white_king, black_king) = (king(&found, 'K', "white")?, king(&found, 'k', "black")?);
    let men: Vec<(char, Square)> =
        found.into_iter().filter(|(piece, _)| !matches!(piece, 'K' | 'k')).collect();
    let men = keyed_men(&men)?;
    let clock = extras(rest, men)?;
    let [white_king, black_king] = [white_king, black_king].map(Square::code);
    Ok(Read { keyed: Keyed { side: side.code(), white_king, black_king, men }, clock })
}

/// The position as FEN, with no clocks run.
pub fn written(keyed: Keyed) -> String {
    let mut text = String::new();
    for rank in (0..8).rev() {
        let mut empty = 0;
        for file in 0..8 {
            let square = Square::from_code(8 * rank + file);
            match square.and_then(|square| crate::board::on(keyed, square)) {
                Some(letter) => {
                    if empty > 0 {
                        text += &empty.to_string();
                    }
                    text.push(letter);
                    empty = 0;
                }
                None => empty += 1,
            }
        }
        if empty > 0 {
            text += &empty.to_string();
        }
        if rank > 0 {
            text.push('/');
        }
    }
    let side = Side::from_code(keyed.side).map_or('-', Side::letter);
    format!("{text} {side} - - 0 1")
}

#[cfg(test)]
mod tests {
    use super::*;

    #[test]
    fn fen_comes_back() {
        for line in ["Q w b3 h2 a1", "q b a1 h2 b3", "N w h8 a8 d4", "r b e4 e5 a1"] {
            let position: Position = line.parse().unwrap();
            let read = from_fen(&written(position.into())).ok().unwrap();
            assert_eq!((Position::keyed(read.keyed), read.clock), (Some(position), Some(0)));
        }
        for text in ["8/P7/8/8/8/8/2K5/k7 w - - 0 1", "8/8/8/8/4K3/7k/p7/8 b - - 0 1"] {
            assert_eq!(from_fen(text).ok().map(|read| written(read.keyed)), Some(text.to_string()));
        }
    }

    #[test]
    fn squares_behind_a_pawn() {
        assert!(from_fen("8/8/8/4k3/P7/8/8/4K3 b - a3 0 1").is_ok());
        assert!(from_fen("4k3/8/8/7p/8/4K3/8/8 w - h6 0 1").is_ok());
        for wrong in ["8/8/8/4k3/P7/8/8/4K3 b - b3 0 1", "8/8/8/4k3/8/P7/8/4K3 b - a2 0 1"] {
            assert!(from_fen(wrong).is_err(), "{wrong}");
        }
    }
}
