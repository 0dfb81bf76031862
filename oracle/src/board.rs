//! Squares, square sets, and the squares a man attacks.

/// 8 x rank + file: a1 = 0, h1 = 7, h8 = 63.
pub type Square = u8;

/// One bit for each square.
pub type SquareSet = u64;

pub const fn file(square: Square) -> u8 {
    square & 7
}

pub const fn rank(square: Square) -> u8 {
    square >> 3
}

/// "Above the diagonal" means rank greater than file.
pub const fn above_diagonal(square: Square) -> bool {
    rank(square) > file(square)
}

pub const fn on_diagonal(square: Square) -> bool {
    rank(square) == file(square)
}

pub const fn bit(square: Square) -> SquareSet {
    1 << (square & 63)
}

pub const fn holds(set: SquareSet, square: Square) -> bool {
    set & bit(square) != 0
}

/// Different squares no more than one file and one rank apart.
pub const fn touching(one: Square, other: Square) -> bool {
    one != other && file(one).abs_diff(file(other)) <= 1 && rank(one).abs_diff(rank(other)) <= 1
}

/// A step in files and ranks.
pub type Step = (i8, i8);

pub const KING_STEPS: [Step; 8] =
    [(1, 0), (0, 1), (-1, 0), (0, -1), (1, 1), (-1, 1), (1, -1), (-1, -1)];

pub const KNIGHT_STEPS: [Step; 8] =
    [(1, 2), (2, 1), (2, -1), (1, -2), (-1, -2), (-2, -1), (-2, 1), (-1, 2)];

/// The square one step away, or none off the board.
pub const fn stepped(square: Square, step: Step) -> Option<Square> {
    let to_file = file(square) as i8 + step.0;
    let to_rank = rank(square) as i8 + step.1;
    if to_file < 0 || to_file > 7 || to_rank < 0 || to_rank > 7 {
        return None;
    }
    Some((to_rank * 8 + to_file) as Square)
}

const fn leaps(steps: &[Step; 8]) -> [SquareSet; 64] {
    let mut sets = [0; 64];
    let mut square = 0;
    while square < 64 {
        let mut k = 0;
        while k < 8 {
            if let Some(to) = stepped(square as Square, steps[k]) {
                sets[square] |= bit(to);
            }
            k += 1;
        }
        square += 1;
    }
    sets
}

const fn rays() -> [[SquareSet; 64]; 8] {
    let mut sets = [[0; 64]; 8];
    let mut k = 0;
    while k < 8 {
        let mut square = 0;
        while square < 64 {
            let mut at = square as Square;
            while let Some(to) = stepped(at, KING_STEPS[k]) {
                sets[k][square] |= bit(to);
                at = to;
            }
            square += 1;
        }
        k += 1;
    }
    sets
}

/// The squares next to each square.
static KING: [SquareSet; 64] = leaps(&KING_STEPS);

static KNIGHT: [SquareSet; 64] = leaps(&KNIGHT_STEPS);

/// All squares in one direction; directions are numbered as in KING_STEPS.
static RAYS: [[SquareSet; 64]; 8] = rays();

/// "A line of attack stops at the first man it meets", that square included.
fn line_of_attack(direction: usize, from: Square, occupied: SquareSet) -> SquareSet {
    let ray = RAYS[direction & 7][from as usize & 63];
    let met = ray & occupied;
    if met == 0 {
        return ray;
    }
    // Two directions of each four lead to higher squares: their first man is the lowest bit.
    let first = if direction % 4 < 2 { met.trailing_zeros() } else { 63 - met.leading_zeros() };
    ray & !RAYS[direction & 7][first as usize & 63]
}

fn slide(first: usize, end: usize, from: Square, occupied: SquareSet) -> SquareSet {
    (first..end).fold(0, |set, direction| set | line_of_attack(direction, from, occupied))
}

pub fn queen_attack(from: Square, occupied: SquareSet) -> SquareSet {
    slide(0, 8, from, occupied)
}

pub fn rook_attack(from: Square, occupied: SquareSet) -> SquareSet {
    slide(0, 4, from, occupied)
}

pub fn bishop_attack(from: Square, occupied: SquareSet) -> SquareSet {
    slide(4, 8, from, occupied)
}

pub fn knight_attack(from: Square) -> SquareSet {
    KNIGHT[from as usize & 63]
}

pub fn king_attack(from: Square) -> SquareSet {
    KING[from as usize & 63]
}

/// The squares of a set, lowest first.
pub struct Squares(pub SquareSet);

impl Iterator for Squares {
    type Item = Square;

    fn next(&mut self) -> Option<Square> {
        if self.0 == 0 {
            return None;
        }
        let lowest = self.0.trailing_zeros() as Square;
        self.0 &= self.0 - 1;
        Some(lowest)
    }
}

/// A square's name, `a1` to `h8`.
pub fn name(square: Square) -> String {
    format!("{}{}", (b'a' + file(square)) as char, (b'1' + (rank(square) & 7)) as char)
}
