//! A second opinion without tables: a plain search straight from the rules.

use std::fmt;

use crate::{entry, Keyed, Refusal, Value};

/// The most plies that a second opinion may be asked for.
pub const MOST_PLIES: u8 = 6;

/// What the search says of the side to move.
#[derive(Clone, Copy, PartialEq, Eq, Hash, Debug)]
pub enum Opinion {
    /// Mate in exactly this many plies, an odd number.
    Win(u8),
    /// Mated in exactly this many plies, an even number; 0 is checkmate.
    Loss(u8),
    /// Neither within the plies asked: deeper, or a draw.
    NotWithin,
}

impl Opinion {
    /// The depth in plies, if one was found.
    pub fn depth(self) -> Option<u8> {
        match self {
            Opinion::Win(depth) | Opinion::Loss(depth) => Some(depth),
            Opinion::NotWithin => None,
        }
    }

    /// What a table's value says of depths up to so many plies. With an accepted table it is the
    /// second opinion.
    pub fn of(value: Value, plies: u8) -> Opinion {
        match value {
            Value::Win(depth) if depth <= plies => Opinion::Win(depth),
            Value::Loss(depth) if depth <= plies => Opinion::Loss(depth),
            _ => Opinion::NotWithin,
        }
    }
}

/// `win 1`, `loss 0` or `not within`.
impl fmt::Display for Opinion {
    fn fmt(&self, out: &mut fmt::Formatter) -> fmt::Result {
        match self {
            Opinion::Win(depth) => write!(out, "win {depth}"),
            Opinion::Loss(depth) => write!(out, "loss {depth}"),
            Opinion::NotWithin => write!(out, "not within"),
        }
    }
}

/// The value and the exact depth of a position if that is at most so many plies, found by a search
/// that reads no table. Refusals 1 to 6, and 16 for more than 6 plies.
///
/// ```
/// use sledgewren::{second_opinion, Opinion, Refusal};
///
/// // White Kb3 Qh2, Black Ka1, White to move
/// let keyed = [0, 0, 17, 15, 0];
/// assert_eq!(second_opinion(keyed, 6), Ok(Opinion::Win(1)));
/// assert_eq!(second_opinion(keyed, 0), Ok(Opinion::NotWithin));
/// assert_eq!(second_opinion(keyed, 7), Err(Refusal::TooManyPlies));
/// ```
pub fn second_opinion(keyed: impl Into<Keyed>, plies: u8) -> Result<Opinion, Refusal> {
    entry::second_opinion(keyed, plies)
}
