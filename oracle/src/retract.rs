//! Moves taken back: the positions from which a position can arise.

use crate::board::{bit, king_attack, Squares};
use crate::position::{Position, Side};
use crate::rules::man_attack;

/// Gives each position, the other side to move, that has a move to this one. The man
/// cannot come back on the board: no position of the ending follows a capture. Those in
/// which Black stands in check with White to move are given too; their byte is 0.
pub fn retractions(position: &Position, mut give: impl FnMut(&Position)) {
    let Position { white_king, man_square, black_king, .. } = *position;
    let mut earlier = *position;
    earlier.side = position.side.other();
    if earlier.side == Side::Black {
        let taken = bit(white_king) | bit(man_square) | king_attack(white_king);
        for from in Squares(king_attack(black_king) & !taken) {
            earlier.black_king = from;
            give(&earlier);
        }
        return;
    }
    let taken = bit(man_square) | bit(black_king) | king_attack(black_king);
    for from in Squares(king_attack(white_king) & !taken) {
        earlier.white_king = from;
        give(&earlier);
    }
    earlier.white_king = white_king;
    let kings = position.kings();
    for from in Squares(man_attack(position.man, man_square, kings) & !kings) {
        earlier.man_square = from;
        give(&earlier);
    }
}
