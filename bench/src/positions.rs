//! The positions that are measured.

use second::position::Keyed as SecondKeyed;
use second::rules::legal_position;
use sledgewren::{Keyed, Man, Side};

/// The man's code and square: all that is measured has one man, White's.
pub fn man_of(keyed: Keyed) -> (usize, u8) {
    keyed.men[0].map_or((0, 0), |man| (man.kind as usize, man.square))
}

/// The same position for the oracle.
pub fn second(keyed: Keyed) -> SecondKeyed {
    let (man, square) = man_of(keyed);
    let man = [man as u8, Side::White.code(), square];
    SecondKeyed::of_one(man, keyed.side, [keyed.white_king, keyed.black_king])
}

/// A position of the oracle's as Gaviota is asked for it: man, side and squares.
#[cfg(feature = "gaviota")]
pub fn probed(gaviota: &gaviota::Gaviota, keyed: &SecondKeyed) -> Option<gaviota::Probed> {
    let SecondKeyed { side, white_king, black_king, men: [first, _] } = *keyed;
    let man = first?;
    Some(gaviota.probe([man.kind, man.colour, man.square], side, [white_king, black_king]))
}

/// All legal positions of an ending on the whole board, one side to move.
pub fn legal(man: Man, side: Side) -> Vec<Keyed> {
    let mut found = Vec::new();
    for white_king in 0..64 {
        for man_square in 0..64 {
            for black_king in 0..64 {
                let (man, side) = (man.code(), side.code());
                let keyed = Keyed::from([man, side, white_king, man_square, black_king]);
                if legal_position(&second(keyed)).is_ok() {
                    found.push(keyed);
                }
            }
        }
    }
    found
}

/// All legal positions of an ending, both sides.
pub fn of_ending(man: Man) -> Vec<Keyed> {
    Side::ALL.into_iter().flat_map(|side| legal(man, side)).collect()
}

/// The same positions in an order without pattern, the same in every run.
pub fn shuffled<T>(mut positions: Vec<T>) -> Vec<T> {
    let mut state = 2049u64;
    for last in (1..positions.len()).rev() {
        state = state.wrapping_mul(6364136223846793005).wrapping_add(1442695040888963407);
        positions.swap(last, (state >> 33) as usize % (last + 1));
    }
    positions
}
