//! What a move leaves.

use crate::{Position, Side, Square};

/// What playing a move gives.
#[derive(Clone, Copy, PartialEq, Eq, Hash, Debug)]
pub enum Played {
    /// The position after the move.
    At(Position),
    /// The man is taken: a draw, which is not looked up.
    BareKings {
        /// The side to move.
        side: Side,
        /// The white king's square.
        white_king: Square,
        /// The black king's square.
        black_king: Square,
    },
    /// The move is not legal, and nothing was played.
    NotLegal,
}
