//! Endings: which men stand on the board besides the kings.

use std::fmt;
use std::str::FromStr;

use crate::{entry, Keyed, KeyedMan, Man, NotRead, Side};

/// One piece besides the kings, or two: both of one side, or one each; or a pawn. With two, the
/// first is the one earlier in queen, rook, bishop, knight. Which side is White does not matter.
#[derive(Clone, Copy, PartialEq, Eq, Hash, Debug)]
pub struct Ending(Men);

/// The men; two of them with whether they are one each.
#[derive(Clone, Copy, PartialEq, Eq, Hash, Debug)]
enum Men {
    One(Man),
    Two(Man, Man, bool),
    Pawn,
}

impl Ending {
    /// King and pawn.
    pub const PAWN: Ending = Ending(Men::Pawn);

    /// With one piece.
    pub fn one(man: Man) -> Ending {
        Ending(Men::One(man))
    }

    /// With two men of one side.
    pub fn two(man: Man, other: Man) -> Ending {
        Ending::pair(man, other, false)
    }

    /// With one man each.
    pub fn rivals(man: Man, other: Man) -> Ending {
        Ending::pair(man, other, true)
    }

    fn pair(man: Man, other: Man, rivals: bool) -> Ending {
        let (first, second) = if man.code() <= other.code() { (man, other) } else { (other, man) };
        Ending(Men::Two(first, second, rivals))
    }

    /// All twenty-five: the four with one piece, then those with two of one side, then those with
    /// one each, then king and pawn.
    pub fn all() -> impl Iterator<Item = Ending> {
        let one = Man::ALL.into_iter().map(Ending::one);
        let two = [false, true].into_iter().flat_map(|rivals| {
            Man::ALL.into_iter().flat_map(move |first| {
                let seconds = Man::ALL.into_iter().skip(first.code() as usize);
                seconds.map(move |second| Ending(Men::Two(first, second, rivals)))
            })
        });
        one.chain(two).chain([Ending::PAWN])
    }

    /// The ending of a position's men, if there is one; squares and the side to move are not
    /// asked.
    pub fn of(keyed: impl Into<Keyed>) -> Option<Ending> {
        entry::ending(keyed)
    }

    /// The first piece; none with a pawn.
    pub fn first(self) -> Option<Man> {
        match self.0 {
            Men::One(man) | Men::Two(man, ..) => Some(man),
            Men::Pawn => None,
        }
    }

    /// The second, if there is one.
    pub fn second(self) -> Option<Man> {
        match self.0 {
            Men::Two(_, man, _) => Some(man),
            Men::One(_) | Men::Pawn => None,
        }
    }

    /// The one piece, if there are neither two nor a pawn.
    pub fn only(self) -> Option<Man> {
        match self.0 {
            Men::One(man) => Some(man),
            Men::Two(..) | Men::Pawn => None,
        }
    }

    /// Whether there are two men, one each.
    pub fn is_rivals(self) -> bool {
        matches!(self.0, Men::Two(_, _, true))
    }

    /// How many bytes its table has.
    pub fn table_bytes(self) -> usize {
        entry::table_bytes(self)
    }

    /// The library's word: one man's code, a pawn's being 4; or bits 0-7 the first's code, 8-15
    /// 1 + the second's, bit 16 one each.
    pub fn word(self) -> u32 {
        match self.0 {
            Men::One(man) => man.code() as u32,
            Men::Two(first, second, rivals) => {
                first.code() as u32 | (second.code() as u32 + 1) << 8 | (rivals as u32) << 16
            }
            Men::Pawn => KeyedMan::PAWN as u32,
        }
    }

    /// The ending of a word, if it is one's.
    pub fn from_word(word: u32) -> Option<Ending> {
        Ending::all().find(|ending| ending.word() == word)
    }
}

impl From<Man> for Ending {
    fn from(man: Man) -> Ending {
        Ending::one(man)
    }
}

impl From<Ending> for u32 {
    fn from(ending: Ending) -> u32 {
        ending.word()
    }
}

impl From<Man> for u32 {
    fn from(man: Man) -> u32 {
        man.code() as u32
    }
}

/// `KQK`, `KQRK`, with one each `KQKR`, and `KPK`.
impl fmt::Display for Ending {
    fn fmt(&self, out: &mut fmt::Formatter) -> fmt::Result {
        match self.0 {
            Men::One(man) => write!(out, "K{}K", man.letter()),
            Men::Two(first, second, false) => {
                write!(out, "K{}{}K", first.letter(), second.letter())
            }
            Men::Two(first, second, true) => {
                write!(out, "K{}K{}", first.letter(), second.letter())
            }
            Men::Pawn => write!(out, "KPK"),
        }
    }
}

/// As written, in either order of the men and of the sides: `KRQK`, `KKQR`, `KRKQ` and `KKP` too.
impl FromStr for Ending {
    type Err = NotRead;

    fn from_str(text: &str) -> Result<Ending, NotRead> {
        let unread = || NotRead::of("an ending, as KQK, KQRK, KQKR or KPK", text);
        if matches!(text, "KPK" | "KKP") {
            return Ok(Ending::PAWN);
        }
        let sides: Vec<&str> = text.strip_prefix('K').ok_or_else(unread)?.split('K').collect();
        let [one, other] = sides[..] else { return Err(unread()) };
        let men: Option<Vec<Man>> = one.chars().chain(other.chars()).map(man_of).collect();
        match men.ok_or_else(unread)?[..] {
            [man] => Ok(Ending::one(man)),
            [man, next] if one.len() == 1 => Ok(Ending::rivals(man, next)),
            [man, next] => Ok(Ending::two(man, next)),
            _ => Err(unread()),
        }
    }
}

fn man_of(letter: char) -> Option<Man> {
    Man::ALL.into_iter().find(|man| man.letter_of(Side::White) == letter)
}

#[cfg(test)]
mod tests {
    use super::*;

    #[test]
    fn names_and_words_come_back() {
        assert_eq!(Ending::all().count(), 25);
        for ending in Ending::all() {
            assert_eq!(ending.to_string().parse(), Ok(ending));
            assert_eq!(Ending::from_word(ending.word()), Some(ending));
        }
        assert_eq!("KRKQ".parse(), Ok(Ending::rivals(Man::Queen, Man::Rook)));
        assert_eq!("KKNB".parse(), Ok(Ending::two(Man::Bishop, Man::Knight)));
        assert_eq!("KKP".parse(), Ok(Ending::PAWN));
        for wrong in ["", "K", "KK", "QK", "KQ", "KPPK", "KQPK", "KQKP", "KQQQK", "KQKRK"] {
            assert!(wrong.parse::<Ending>().is_err(), "{wrong}");
        }
    }
}
