//! Reading men, sides, moves and positions from text, as the desk writes them.

use std::fmt;
use std::str::FromStr;

use crate::{Man, Move, Position, Side};

/// Text that is not what it should be: what was sought, and the text.
#[derive(Clone, PartialEq, Eq, Debug)]
pub struct NotRead {
    sought: &'static str,
    text: String,
}

impl NotRead {
    pub(crate) fn of(sought: &'static str, text: &str) -> NotRead {
        NotRead { sought, text: text.to_string() }
    }
}

impl fmt::Display for NotRead {
    fn fmt(&self, out: &mut fmt::Formatter) -> fmt::Result {
        write!(out, "{:?} is not {}", self.text, self.sought)
    }
}

impl std::error::Error for NotRead {}

const MAN: &str = "a man: give Q, R, B, N or queen, rook, bishop, knight";
const LETTER: &str = "a man: give Q, R, B or N for White's, q, r, b or n for Black's";
const SIDE: &str = "a side: give w or b";
pub(crate) const SQUARE: &str = "a square: give a1 to h8";
const MOVE: &str = "a move: give h2g1, a1xb2 where it takes, a7a8q where a pawn becomes a queen";
const POSITION: &str =
    "a position: give man, side, white king, man and black king, as Q w b3 h2 a1";

/// `Q`, `R`, `B` or `N`, or the name.
impl FromStr for Man {
    type Err = NotRead;

    fn from_str(text: &str) -> Result<Man, NotRead> {
        let named = |man: &Man| man.to_string() == text || man.letter().to_string() == text;
        Man::ALL.into_iter().find(named).ok_or_else(|| NotRead::of(MAN, text))
    }
}

/// `w` or `b`.
impl FromStr for Side {
    type Err = NotRead;

    fn from_str(text: &str) -> Result<Side, NotRead> {
        let named = |side: &Side| side.letter().to_string() == text;
        Side::ALL.into_iter().find(named).ok_or_else(|| NotRead::of(SIDE, text))
    }
}

/// `h2g1`, `a1xb2` where it takes, `a7a8q` where a pawn becomes a queen.
impl FromStr for Move {
    type Err = NotRead;

    fn from_str(text: &str) -> Result<Move, NotRead> {
        let read = || {
            let (from, rest) = (text.get(..2)?, text.get(2..)?);
            let (takes, rest) = match rest.strip_prefix('x') {
                Some(rest) => (true, rest),
                None => (false, rest),
            };
            let (to, piece) = (rest.get(..2)?, rest.get(2..)?);
            let named = |man: &Man| man.letter_of(Side::Black).to_string() == piece;
            let becomes = Man::ALL.into_iter().find(named);
            (piece.is_empty() || becomes.is_some()).then_some(())?;
            Some(Move { from: from.parse().ok()?, to: to.parse().ok()?, takes, becomes })
        };
        read().ok_or_else(|| NotRead::of(MOVE, text))
    }
}

/// `Q w b3 h2 a1`, or with Black's queen `q b a1 h2 b3`: five words with one blank between them,
/// as the desk reads them. The position need not be legal.
impl FromStr for Position {
    type Err = NotRead;

    fn from_str(text: &str) -> Result<Position, NotRead> {
        let words: Vec<&str> = text.split(' ').collect();
        let [man, side, white_king, man_square, black_king] = words[..] else {
            return Err(NotRead::of(POSITION, text));
        };
        let all = Side::ALL.into_iter().flat_map(|owner| Man::ALL.map(|man| (man, owner)));
        let (man, owner) = all
            .into_iter()
            .find(|(found, owner)| found.letter_of(*owner).to_string() == man)
            .ok_or_else(|| NotRead::of(LETTER, man))?;
        Ok(Position {
            man,
            owner,
            side: side.parse()?,
            white_king: white_king.parse()?,
            man_square: man_square.parse()?,
            black_king: black_king.parse()?,
        })
    }
}

#[cfg(test)]
mod tests {
    use super::*;
    use crate::Square;

    #[test]
    fn what_is_written_is_read() {
        for man in Man::ALL {
            assert_eq!(man.to_string().parse(), Ok(man));
            assert_eq!(man.letter().to_string().parse(), Ok(man));
        }
        for side in Side::ALL {
            assert_eq!(side.letter().to_string().parse(), Ok(side));
        }
        for from in Square::all() {
            for to in Square::all() {
                for takes in [false, true] {
                    for becomes in [None, Some(Man::Queen), Some(Man::Knight)] {
                        let chosen = Move { from, to, takes, becomes };
                        assert_eq!(chosen.to_string().parse(), Ok(chosen));
                    }
                }
            }
        }
        for text in ["Q w b3 h2 a1", "q b a1 h2 b3", "N w a1 a1 a2", "r w h8 a1 e4"] {
            let position: Position = text.parse().unwrap();
            assert_eq!(position.to_string(), text);
        }
    }

    #[test]
    fn other_text_is_not_read() {
        for text in ["", "q", "P", "Queen", "Q "] {
            assert!(text.parse::<Man>().is_err(), "{text:?}");
        }
        for text in ["", "W", "white"] {
            assert!(text.parse::<Side>().is_err(), "{text:?}");
        }
        for text in [
            "",
            "h2",
            "h2-g1",
            "h2g",
            "h2g11",
            "h2xxg1",
            "a7a8k",
            "a7a8Q",
            "a7a8qq",
            "\u{e9}1a1",
            "a1\u{e9}",
        ] {
            assert!(text.parse::<Move>().is_err(), "{text:?}");
        }
        for text in ["", "Q w b3 h2", "Q  w b3 h2 a1", "Q w b3 h2 a1 ", "P w b3 h2 a1"] {
            assert!(text.parse::<Position>().is_err(), "{text:?}");
        }
        let words = "Q w b3 h9 a1".parse::<Position>().unwrap_err().to_string();
        assert_eq!(words, "\"h9\" is not a square: give a1 to h8");
    }
}
