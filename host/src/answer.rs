//! What looking up and checking answer.

use std::fmt;

use crate::Move;

/// What a position is for the side to move, with its depth in plies.
#[derive(Clone, Copy, PartialEq, Eq, Hash, Debug)]
pub enum Value {
    /// Mate in this many plies, an odd number.
    Win(u8),
    /// Mated in this many plies, an even number; 0 is checkmate.
    Loss(u8),
    /// Neither; stalemate too.
    Draw,
}

/// Look-up's answer, with the move to play inside it. There is none at checkmate and stalemate.
#[derive(Clone, Copy, PartialEq, Eq, Hash, Debug)]
pub enum Answer {
    /// The side to move mates.
    Win {
        /// In this many plies.
        depth: u8,
        /// The first move on the normalised board, carried back, that leads to a loss in one ply less.
        best: Option<Move>,
    },
    /// The side to move is mated.
    Loss {
        /// In this many plies.
        depth: u8,
        /// The first move on the normalised board, carried back, that leads to a win in one ply less.
        best: Option<Move>,
    },
    /// A draw.
    Draw {
        /// The first move on the normalised board, carried back, that leads to a draw.
        best: Option<Move>,
    },
}

impl Answer {
    /// The value alone.
    pub fn value(self) -> Value {
        match self {
            Answer::Win { depth, .. } => Value::Win(depth),
            Answer::Loss { depth, .. } => Value::Loss(depth),
            Answer::Draw { .. } => Value::Draw,
        }
    }

    /// The move alone.
    pub fn best(self) -> Option<Move> {
        match self {
            Answer::Win { best, .. } | Answer::Loss { best, .. } | Answer::Draw { best } => best,
        }
    }

    /// The depth in plies; a draw has none.
    pub fn depth(self) -> Option<u8> {
        match self {
            Answer::Win { depth, .. } | Answer::Loss { depth, .. } => Some(depth),
            Answer::Draw { .. } => None,
        }
    }
}

/// `win 1`, `loss 0` or `draw`.
impl fmt::Display for Value {
    fn fmt(&self, out: &mut fmt::Formatter) -> fmt::Result {
        match self {
            Value::Win(depth) => write!(out, "win {depth}"),
            Value::Loss(depth) => write!(out, "loss {depth}"),
            Value::Draw => write!(out, "draw"),
        }
    }
}

/// As on the desk's slip: `win 1 h2a2`, `loss 0`, `draw a1xb2`.
impl fmt::Display for Answer {
    fn fmt(&self, out: &mut fmt::Formatter) -> fmt::Result {
        match self.best() {
            Some(best) => write!(out, "{} {best}", self.value()),
            None => write!(out, "{}", self.value()),
        }
    }
}

/// Look-up's answer at a count of plies since the last capture, and whether a fifty-move claim
/// can spoil it.
#[derive(Clone, Copy, PartialEq, Eq, Hash, Debug)]
pub struct Marked {
    /// The answer; it does not hang on the count.
    pub answer: Answer,
    /// A win or a loss whose depth and count make at most 100: the winner who plays the moves
    /// given mates before the loser may claim a draw (FIDE 9.3). Never set on a draw.
    pub within_fifty: bool,
}

/// `mate in 23 plies, within the fifty-move rule at this count`.
impl fmt::Display for Marked {
    fn fmt(&self, out: &mut fmt::Formatter) -> fmt::Result {
        let not = if self.within_fifty { "" } else { "not " };
        match self.answer.value() {
            Value::Win(depth) => write!(out, "mate in {depth} plies, {not}")?,
            Value::Loss(depth) => write!(out, "mated in {depth} plies, {not}")?,
            Value::Draw => return write!(out, "draw"),
        }
        write!(out, "within the fifty-move rule at this count")
    }
}

/// What checking says of a table.
#[derive(Clone, Copy, PartialEq, Eq, Hash, Debug)]
pub enum Checked {
    /// Every byte is the one required: the table is the true one.
    Accepted,
    /// The lowest number whose byte is wrong.
    Wrong(u32),
}
