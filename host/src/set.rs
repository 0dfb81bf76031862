//! One set of bytes for the tables of several endings.

use std::borrow::Cow;
use std::fmt;

use crate::entry::{self, Lent};
use crate::{Answer, Man, Position, Refusal, TABLE_BYTES};

/// Which endings a set holds: a yes or no for each man.
#[derive(Clone, Copy, PartialEq, Eq, Hash, Debug, Default)]
pub struct Choice([bool; 4]);

impl Choice {
    /// All four endings.
    pub const ALL: Choice = Choice([true; 4]);

    /// Is this man's ending chosen?
    pub fn has(self, man: Man) -> bool {
        self.0[man as usize]
    }

    /// The chosen men, in the order of their codes.
    pub fn men(self) -> impl Iterator<Item = Man> {
        Man::ALL.into_iter().filter(move |&man| self.has(man))
    }

    /// Bytes of the set: 4 with no ending, 236,596 with all four.
    pub fn set_bytes(self) -> usize {
        4 + (12 + TABLE_BYTES) * self.men().count()
    }
}

/// The endings of these men.
impl FromIterator<Man> for Choice {
    fn from_iter<I: IntoIterator<Item = Man>>(men: I) -> Choice {
        let mut choice = Choice::default();
        for man in men {
            choice.0[man as usize] = true;
        }
        choice
    }
}

/// A right set of tables: its header is the one that the rules give for its endings, and it is as
/// long as that says. What the tables hold is not asked: checking tells. The bytes are the set's
/// own or lent to it.
#[derive(Clone, PartialEq, Eq)]
pub struct Set<'a>(Cow<'a, [u8]>);

/// `a set of queen, rook`: the bytes would fill pages.
impl fmt::Debug for Set<'_> {
    fn fmt(&self, out: &mut fmt::Formatter) -> fmt::Result {
        let men: Vec<String> = self.choice().men().map(|man| man.to_string()).collect();
        write!(out, "a set of {}", if men.is_empty() { "none".into() } else { men.join(", ") })
    }
}

impl<'a> Set<'a> {
    /// A set from elsewhere, as a file's bytes: a `Vec<u8>` becomes the set's own, a `&[u8]` is
    /// lent. Refusal 14.
    pub fn from_bytes(bytes: impl Into<Cow<'a, [u8]>>) -> Result<Set<'a>, Refusal> {
        let bytes = bytes.into();
        match entry::set_find(&bytes, Man::Queen) {
            Ok(_) | Err(Refusal::NotInSet) => Ok(Set(bytes)),
            Err(refusal) => Err(refusal),
        }
    }

    /// The true tables of the chosen endings as one set. Refusal 10, which none of the four
    /// endings is given.
    pub fn written(choice: Choice) -> Result<Set<'static>, Refusal> {
        let mut bytes = vec![0; choice.set_bytes()];
        entry::set_write(choice, &mut bytes)?;
        Ok(Set(bytes.into()))
    }

    /// The same set, written ending by ending: after each, its man and the greatest depth, or
    /// none if no position is decided. Refusal 10.
    pub fn written_by_endings(
        choice: Choice,
        mut progress: impl FnMut(Man, Option<u8>),
    ) -> Result<Set<'static>, Refusal> {
        let mut bytes = vec![0; choice.set_bytes()];
        entry::set_start(choice, &mut bytes)?;
        for man in choice.men() {
            progress(man, entry::set_fill(man, &mut bytes)?);
        }
        Ok(Set(bytes.into()))
    }

    /// The very part of the set that holds an ending's table. Refusal 15.
    pub fn table(&self, man: Man) -> Result<&[u8], Refusal> {
        entry::set_find(&self.0, man).map(|place| &self.0[place])
    }

    /// The endings that the set holds.
    pub fn choice(&self) -> Choice {
        Man::ALL.into_iter().filter(|&man| self.table(man).is_ok()).collect()
    }

    /// A position's value, depth and move, from the table of its ending. Refusals 4, 5, 6, 11 and
    /// 15.
    pub fn look_up(&self, position: Position) -> Result<Answer, Refusal> {
        entry::look_up(position, Lent::NONE, self.table(position.man)?)
    }

    /// The bytes.
    pub fn bytes(&self) -> &[u8] {
        &self.0
    }

    /// The bytes, copied if they are lent.
    pub fn into_bytes(self) -> Vec<u8> {
        self.0.into_owned()
    }

    /// This set, lent.
    pub fn borrowed(&self) -> Set<'_> {
        Set(Cow::Borrowed(&self.0))
    }
}
