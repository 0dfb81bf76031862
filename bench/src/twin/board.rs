//! What a piece attacks.

use super::KING;

const ROOK: [(i32, i32); 4] = [(0, -1), (-1, 0), (1, 0), (0, 1)];
const BISHOP: [(i32, i32); 4] = [(-1, -1), (1, -1), (-1, 1), (1, 1)];
const KNIGHT: [(i32, i32); 8] =
    [(-1, -2), (1, -2), (-2, -1), (2, -1), (-2, 1), (2, 1), (-1, 2), (1, 2)];
const AROUND: [(i32, i32); 8] =
    [(-1, -1), (0, -1), (1, -1), (-1, 0), (1, 0), (-1, 1), (0, 1), (1, 1)];

/// For each square those that so many of these steps lead to, on the empty board.
const fn reached<const N: usize>(steps: [(i32, i32); N], times: usize) -> [u64; 64] {
    let mut sets = [0; 64];
    let mut square = 0;
    while square < 64 {
        let mut k = 0;
        while k < N {
            let (mut file, mut rank) = (square % 8 + steps[k].0, square / 8 + steps[k].1);
            let mut n = 0;
            while n < times && 0 <= file && file < 8 && 0 <= rank && rank < 8 {
                sets[square as usize] |= 1 << (8 * rank + file);
                file += steps[k].0;
                rank += steps[k].1;
                n += 1;
            }
            k += 1;
        }
        square += 1;
    }
    sets
}

static KING_STEPS: [u64; 64] = reached(AROUND, 1);
static KNIGHT_STEPS: [u64; 64] = reached(KNIGHT, 1);
static ROOK_LINES: [u64; 64] = reached(ROOK, 7);
static BISHOP_LINES: [u64; 64] = reached(BISHOP, 7);

const NOT_A: u64 = 0xfefe_fefe_fefe_fefe;
const NOT_H: u64 = 0x7f7f_7f7f_7f7f_7f7f;

/// The eight directions, the rook's first: by how much a square's bit goes up, and where it may end.
static DIRECTIONS: [(i8, u64); 8] =
    [(-8, !0), (-1, NOT_H), (1, NOT_A), (8, !0), (-9, NOT_H), (-7, NOT_A), (7, NOT_H), (9, NOT_A)];

/// The set of one square; empty off the board.
pub fn one(square: u8) -> u64 {
    if square < 64 {
        1 << square
    } else {
        0
    }
}

pub fn has(set: u64, square: u8) -> bool {
    set & one(square) != 0
}

fn stepped(bit: u64, (shift, ends): (i8, u64)) -> u64 {
    let moved = if shift < 0 { bit >> -shift } else { bit << shift };
    moved & ends
}

/// Each line stops at the first piece it meets.
fn lines(occupied: u64, from: u8, directions: &[(i8, u64)]) -> u64 {
    let mut set = 0;
    for &direction in directions {
        let mut at = one(from);
        loop {
            at = stepped(at, direction);
            set |= at;
            if at & !occupied == 0 {
                break;
            }
        }
    }
    set
}

fn rook(occupied: u64, from: u8) -> u64 {
    let full = ROOK_LINES[from as usize];
    if full & occupied == 0 {
        full
    } else {
        lines(occupied, from, &DIRECTIONS[..4])
    }
}

fn bishop(occupied: u64, from: u8) -> u64 {
    let full = BISHOP_LINES[from as usize];
    if full & occupied == 0 {
        full
    } else {
        lines(occupied, from, &DIRECTIONS[4..])
    }
}

/// All squares that a piece of this kind attacks; none off the board.
pub fn targets(occupied: u64, kind: u8, from: u8) -> u64 {
    if from >= 64 {
        return 0;
    }
    match kind {
        0 => rook(occupied, from) | bishop(occupied, from),
        1 => rook(occupied, from),
        2 => bishop(occupied, from),
        3 => KNIGHT_STEPS[from as usize],
        KING => KING_STEPS[from as usize],
        _ => 0,
    }
}

/// Does a walk in one of the directions meet the square first?
fn meets(occupied: u64, from: u8, directions: &[(i8, u64)], square: u8) -> bool {
    let standing = occupied | one(square);
    directions.iter().any(|&direction| {
        let mut at = stepped(one(from), direction);
        while at & !standing != 0 {
            at = stepped(at, direction);
        }
        at == one(square)
    })
}

/// Does a piece of this kind attack the square?
pub fn attacks(occupied: u64, kind: u8, from: u8, square: u8) -> bool {
    if !has(targets(0, kind, from), square) {
        return false;
    }
    match kind {
        0 => meets(occupied, from, &DIRECTIONS, square),
        1 => meets(occupied, from, &DIRECTIONS[..4], square),
        2 => meets(occupied, from, &DIRECTIONS[4..], square),
        _ => true,
    }
}

/// The squares of a set, lowest first.
pub fn squares(mut set: u64) -> impl Iterator<Item = u8> {
    std::iter::from_fn(move || {
        (set != 0).then(|| {
            let square = set.trailing_zeros() as u8;
            set &= set - 1;
            square
        })
    })
}
