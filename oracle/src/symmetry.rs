//! The board's eight maps: files reversed or not, ranks reversed or not, file and
//! rank exchanged or not.

use crate::board::{file, rank, Square};
use crate::position::Position;

pub const fn files_reversed(square: Square) -> Square {
    square ^ 7
}

pub const fn ranks_reversed(square: Square) -> Square {
    square ^ 56
}

pub const fn exchanged(square: Square) -> Square {
    8 * file(square) + rank(square)
}

/// Map k: bit 0 reverses the files, bit 1 the ranks, and then bit 2 exchanges them.
pub const fn mapped(map: u8, square: Square) -> Square {
    let square = if map & 1 != 0 { files_reversed(square) } else { square };
    let square = if map & 2 != 0 { ranks_reversed(square) } else { square };
    if map & 4 != 0 {
        exchanged(square)
    } else {
        square
    }
}

/// The square that a map takes to this one: its parts undone, the last first.
pub const fn mapped_back(map: u8, square: Square) -> Square {
    let square = if map & 4 != 0 { exchanged(square) } else { square };
    mapped(map & 3, square)
}

/// "A map is a change of a position into a position."
pub fn position_mapped(map: u8, position: &Position) -> Position {
    Position {
        man: position.man,
        side: position.side,
        white_king: mapped(map, position.white_king),
        man_square: mapped(map, position.man_square),
        black_king: mapped(map, position.black_king),
    }
}
