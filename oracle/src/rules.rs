//! Check, legality and legal moves, by the Laws of Chess.

use crate::board::{self, bit, holds, king_attack, Square, SquareSet, Squares};
use crate::position::{Keyed, Man, Position, Refused, Side};

/// "There are at most 35": 27 queen moves and 8 king moves.
pub const MOST_MOVES: usize = 35;

/// A move; a taking one has a man of the other side on its target.
#[derive(Clone, Copy, PartialEq, Eq, Debug, Default)]
pub struct Move {
    pub from: Square,
    pub to: Square,
    pub takes: bool,
}

/// Moves by from-square, then to-square; unused places hold zero, a plain move from a1 to a1.
#[derive(Clone, Copy)]
pub struct MoveList {
    count: usize,
    moves: [Move; MOST_MOVES],
}

impl MoveList {
    fn new() -> MoveList {
        MoveList { count: 0, moves: [Move::default(); MOST_MOVES] }
    }

    fn add_all(&mut self, from: Square, targets: SquareSet, others: SquareSet) {
        for to in Squares(targets) {
            if let Some(place) = self.moves.get_mut(self.count) {
                *place = Move { from, to, takes: holds(others, to) };
                self.count += 1;
            }
        }
    }

    pub fn as_slice(&self) -> &[Move] {
        &self.moves[..self.count]
    }

    /// All 35 places, the unused ones too.
    pub fn places(&self) -> &[Move; MOST_MOVES] {
        &self.moves
    }
}

/// The squares the white man attacks from `from`.
pub fn man_attack(man: Man, from: Square, occupied: SquareSet) -> SquareSet {
    match man {
        Man::Queen => board::queen_attack(from, occupied),
        Man::Rook => board::rook_attack(from, occupied),
        Man::Bishop => board::bishop_attack(from, occupied),
        Man::Knight => board::knight_attack(from),
    }
}

fn black_attacked(position: &Position) -> bool {
    // Only the white king can stand between; the white king's own attack is refusal 5.
    let seen = man_attack(position.man, position.man_square, bit(position.white_king));
    holds(seen, position.black_king)
}

/// Is the side to move in check? White never is: Black has but the king.
pub fn in_check(position: &Position) -> bool {
    position.side == Side::Black && black_attacked(position)
}

/// "Side not to move not in check": the part of legality left after placing.
pub fn legal(position: &Position) -> bool {
    position.side == Side::Black || !black_attacked(position)
}

/// Refusals 1 to 6, for the move list and look-up.
pub fn legal_position(keyed: &Keyed) -> Result<Position, Refused> {
    let position = keyed.placed()?;
    if legal(&position) {
        Ok(position)
    } else {
        Err(Refused(6))
    }
}

fn white_king_targets(position: &Position) -> SquareSet {
    king_attack(position.white_king) & !king_attack(position.black_king) & !bit(position.man_square)
}

fn man_targets(position: &Position) -> SquareSet {
    let kings = position.kings();
    man_attack(position.man, position.man_square, kings) & !kings
}

fn black_king_targets(position: &Position) -> SquareSet {
    // The black king has left his square, so a line passes through it. No man attacks
    // its own square, so it can be taken unless the white king stands next to it.
    let seen = man_attack(position.man, position.man_square, bit(position.white_king));
    king_attack(position.black_king) & !king_attack(position.white_king) & !seen
}

/// The squares on which a side's men stand, its king included.
fn men_of(position: &Position, side: Side) -> SquareSet {
    match side {
        Side::White => bit(position.white_king) | bit(position.man_square),
        Side::Black => bit(position.black_king),
    }
}

/// The legal moves of a legal position.
pub fn moves(position: &Position) -> MoveList {
    let mut list = MoveList::new();
    let others = men_of(position, position.side.other());
    if position.side == Side::Black {
        list.add_all(position.black_king, black_king_targets(position), others);
        return list;
    }
    if position.white_king < position.man_square {
        list.add_all(position.white_king, white_king_targets(position), others);
        list.add_all(position.man_square, man_targets(position), others);
    } else {
        list.add_all(position.man_square, man_targets(position), others);
        list.add_all(position.white_king, white_king_targets(position), others);
    }
    list
}

/// The position after a move, or none where the man is taken and bare kings are left.
pub fn play(position: &Position, chosen: Move) -> Option<Position> {
    let mut next = *position;
    next.side = position.side.other();
    match position.side {
        Side::White if chosen.from == position.white_king => next.white_king = chosen.to,
        Side::White => next.man_square = chosen.to,
        Side::Black if chosen.to == position.man_square => return None,
        Side::Black => next.black_king = chosen.to,
    }
    Some(next)
}

/// A move as the desk writes it, `h2g1`; with `x` before the target where a man is taken, `a1xb2`.
pub fn move_name(chosen: Move) -> String {
    let taking = if chosen.takes { "x" } else { "" };
    board::name(chosen.from) + taking + &board::name(chosen.to)
}
