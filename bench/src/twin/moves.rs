//! Legal moves, and what their bytes require.

use super::board::{attacks, has, one, squares, targets};
use super::numbers::{number, number_alone, Frame};
use super::{after, Men, Place, KING, OFF};

/// The square of a man, if he is of this side.
fn of(owner: u8, side: u8, square: u8) -> u8 {
    if owner == side {
        square
    } else {
        OFF
    }
}

fn own(men: Men, q: Place, side: u8) -> u64 {
    one(q.king(side)) | one(of(0, side, q.first)) | one(of(men.colour, side, q.second))
}

/// Is this side in check by a man? Kings are apart.
pub fn checked(men: Men, q: Place, side: u8) -> bool {
    let (occupied, foe, king) = (q.occupied(), 1 - side, q.king(side));
    attacks(occupied, men.first, of(0, foe, q.first), king)
        || attacks(occupied, men.second, of(men.colour, foe, q.second), king)
}

/// The squares that the men of this colour attack.
fn struck(men: Men, q: Place, occupied: u64, colour: u8) -> u64 {
    targets(occupied, men.first, of(0, colour, q.first))
        | targets(occupied, men.second, of(men.colour, colour, q.second))
}

/// A man's targets. `strike` is what his foes attack with his king lifted off.
fn man_reach(men: Men, q: Place, strike: u64, kind: u8, owner: u8, square: u8) -> u64 {
    if owner != q.side || square == OFF {
        return 0;
    }
    let (occupied, foe, king) = (q.occupied(), 1 - q.side, q.king(q.side));
    let free = targets(occupied, kind, square) & !own(men, q, q.side);
    if strike & (one(king) | one(square)) == 0 {
        return free;
    }
    let strike = struck(men, q, occupied & !one(square), foe);
    if !has(strike, king) {
        return free;
    }
    squares(free & (strike | own(men, q, foe)))
        .filter(|&to| !checked(men, q.moved(square, to), q.side))
        .fold(0, |set, to| set | one(to))
}

fn king_reach(men: Men, q: Place, strike: u64) -> u64 {
    let free = targets(0, KING, q.king(q.side)) & !own(men, q, q.side);
    free & !(targets(0, KING, q.king(1 - q.side)) | strike)
}

/// What the foes attack with the mover's king lifted off.
fn strike(men: Men, q: Place) -> u64 {
    struck(men, q, q.occupied() & !one(q.king(q.side)), 1 - q.side)
}

/// The pieces of the side to move, each with its legal targets: the king, the first man, the second.
fn reach(men: Men, q: Place) -> [(u8, u64); 3] {
    let (king, strike) = (q.king(q.side), strike(men, q));
    [
        (king, king_reach(men, q, strike)),
        (q.first, man_reach(men, q, strike, men.first, 0, q.first)),
        (q.second, man_reach(men, q, strike, men.second, men.colour, q.second)),
    ]
}

/// A king who may move is not mated, as most that are in check may.
pub fn mated(men: Men, q: Place) -> bool {
    checked(men, q, q.side)
        && king_reach(men, q, strike(men, q)) == 0
        && reach(men, q).iter().all(|&(_, targets)| targets == 0)
}

/// The tables that are read: the ending's own, and those of a man left alone.
#[derive(Clone, Copy)]
pub struct Tables<'a> {
    pub own: &'a [u8],
    pub small: [&'a [u8]; 2],
}

/// The byte of what is left of an ending's men.
pub fn byte_of(men: Men, q: Place, tables: Tables) -> u8 {
    let [first, second] = tables.small;
    if q.first == OFF && q.second == OFF {
        return 1;
    }
    if q.first == OFF {
        let lent = if men.first == men.second { first } else { second };
        return lent[number_alone(men.colour, q, q.second)];
    }
    if q.second == OFF && !men.single() {
        return first[number_alone(0, q, q.first)];
    }
    tables.own[number(men, q)]
}

fn byte_after(men: Men, q: Place, frame: Frame, from: u8, to: u8, tables: Tables) -> u8 {
    let (x, y) = (after(from, to, q.first), after(from, to, q.second));
    let king = q.white == from || q.black == from;
    if !king && x != OFF && (men.single() || y != OFF) {
        return tables.own[frame.number(men, x, y)];
    }
    byte_of(men, q.moved(from, to), tables)
}

fn is_win(byte: u8) -> bool {
    byte >= 3 && byte % 2 == 1
}

/// Does a successor's byte show that depth k is not required?
pub fn spoils(k: u8, byte: u8) -> bool {
    let next = 1 + k as u16;
    if k % 2 == 0 {
        !(is_win(byte) && byte as u16 <= next)
    } else {
        byte % 2 == 0 && byte >= 2 && (byte as u16) < next
    }
}

/// Do the bytes of the place's successors require depth k?
pub fn requires(men: Men, q: Place, k: u8, tables: Tables) -> bool {
    if k == 0 {
        return mated(men, q);
    }
    let mut found = false;
    for (from, targets) in reach(men, q) {
        if targets == 0 {
            continue;
        }
        let frame = Frame::new(1 - q.side, q.white, q.black);
        for to in squares(targets) {
            let byte = byte_after(men, q, frame, from, to, tables);
            if spoils(k, byte) {
                return false;
            }
            found |= byte as u16 == 1 + k as u16;
        }
    }
    found
}

/// The byte that a legal place's successors require, for the check of a lent table.
pub fn required(men: Men, q: Place, tables: Tables) -> u8 {
    let moves = reach(men, q);
    if moves.iter().all(|&(_, targets)| targets == 0) {
        return if checked(men, q, q.side) { 2 } else { 1 };
    }
    // The quickest win, or, where all lose, the slowest loss.
    let (mut win, mut loss) = (u8::MAX, Some(0));
    for (from, targets) in moves {
        let frame = Frame::new(1 - q.side, q.white, q.black);
        for to in squares(targets) {
            match byte_after(men, q, frame, from, to, tables) {
                byte if is_win(byte) => loss = loss.map(|slowest: u8| slowest.max(byte)),
                byte => {
                    loss = None;
                    if byte >= 2 {
                        win = win.min(byte);
                    }
                }
            }
        }
    }
    match loss {
        _ if win < u8::MAX => win + 1,
        Some(slowest) => slowest.saturating_add(1),
        None => 1,
    }
}
