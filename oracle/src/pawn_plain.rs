//! The Laws read a second time with pawns, on a board of 64 letters, for the self test alone: walk
//! each line, make each move, see whether the king could be taken. Capitals are White's; a pawn may
//! take aslant whatever stands there.

use crate::position::{Keyed, Side};
use crate::search::Opinion;

pub type Letters = [u8; 64];

pub const EMPTY: u8 = b'.';

/// From, to, whether a man stood there, and the piece's place in `QRBN` or none.
pub type LettersMove = (usize, usize, bool, Option<usize>);

const PIECES: &[u8; 5] = b"QRBNP";

fn owned_by(letter: u8, side: Side) -> bool {
    letter.is_ascii_alphabetic() && letter.is_ascii_uppercase() == (side == Side::White)
}

fn in_colour(letter: u8, side: Side) -> u8 {
    match side {
        Side::White => letter,
        Side::Black => letter.to_ascii_lowercase(),
    }
}

/// The board of a record whose squares and kinds are known.
pub fn letters(keyed: &Keyed) -> Letters {
    let mut board = [EMPTY; 64];
    board[keyed.white_king as usize & 63] = b'K';
    board[keyed.black_king as usize & 63] = b'k';
    for man in keyed.men.into_iter().flatten() {
        let side = Side::from_code(man.colour).unwrap_or(Side::White);
        let letter = PIECES.get(man.kind as usize).copied().unwrap_or(EMPTY);
        board[man.square as usize & 63] = in_colour(letter, side);
    }
    board
}

fn at(file: i32, rank: i32) -> Option<usize> {
    ((0..8).contains(&file) && (0..8).contains(&rank)).then_some((8 * rank + file) as usize)
}

/// Every step that a letter makes, and how often it may repeat it.
fn steps(letter: u8) -> (Vec<(i32, i32)>, i32) {
    let straight = [(1, 0), (-1, 0), (0, 1), (0, -1)];
    let aslant = [(1, 1), (1, -1), (-1, 1), (-1, -1)];
    let leaps = [(1, 2), (2, 1), (-1, 2), (-2, 1), (1, -2), (2, -1), (-1, -2), (-2, -1)];
    match letter {
        b'K' | b'k' => ([straight, aslant].concat(), 1),
        b'Q' | b'q' => ([straight, aslant].concat(), 7),
        b'R' | b'r' => (straight.to_vec(), 7),
        b'B' | b'b' => (aslant.to_vec(), 7),
        b'N' | b'n' => (leaps.to_vec(), 1),
        b'P' => (vec![(-1, 1), (1, 1)], 1),
        b'p' => (vec![(-1, -1), (1, -1)], 1),
        _ => (vec![], 0),
    }
}

/// The squares on which a man could take: each line up to and with the first man.
fn takes_on(board: &Letters, from: usize) -> Vec<usize> {
    let (file, rank) = (from as i32 % 8, from as i32 / 8);
    let (steps, often) = steps(board[from]);
    let mut squares = vec![];
    for (files, ranks) in steps {
        for times in 1..=often {
            let Some(to) = at(file + files * times, rank + ranks * times) else { break };
            squares.push(to);
            if board[to] != EMPTY {
                break;
            }
        }
    }
    squares
}

/// FIDE 3.7: forward to an empty square; from its first position two, if both are empty; aslant
/// only where a man of the other side stands.
fn pawn_steps(board: &Letters, from: usize, side: Side) -> Vec<usize> {
    let (file, rank) = (from as i32 % 8, from as i32 / 8);
    let (forward, first) = if side == Side::White { (1, 1) } else { (-1, 6) };
    let empty = |square: Option<usize>| square.filter(|&square| board[square] == EMPTY);
    let mut squares: Vec<usize> =
        takes_on(board, from).into_iter().filter(|&to| board[to] != EMPTY).collect();
    if let Some(one) = empty(at(file, rank + forward)) {
        squares.push(one);
        if rank == first {
            squares.extend(empty(at(file, rank + 2 * forward)));
        }
    }
    squares
}

pub fn in_check(board: &Letters, side: Side) -> bool {
    let king = in_colour(b'K', side);
    (0..64).any(|from| {
        owned_by(board[from], side.other())
            && takes_on(board, from).iter().any(|&to| board[to] == king)
    })
}

/// The board after a move.
pub fn moved(board: &Letters, side: Side, (from, to, _, piece): LettersMove) -> Letters {
    let mut after = *board;
    after[to] = piece.map_or(board[from], |piece| in_colour(PIECES[piece], side));
    after[from] = EMPTY;
    after
}

/// The legal moves of a side by from-square, to-square and piece.
pub fn moves(board: &Letters, side: Side) -> Vec<LettersMove> {
    let mut list = vec![];
    for from in (0..64).filter(|&from| owned_by(board[from], side)) {
        let pawn = board[from].eq_ignore_ascii_case(&b'p');
        let reached = if pawn { pawn_steps(board, from, side) } else { takes_on(board, from) };
        for to in reached.into_iter().filter(|&to| !owned_by(board[to], side)) {
            let last = pawn && (to / 8 == 0 || to / 8 == 7);
            let pieces = if last { (0..4).map(Some).collect() } else { vec![None] };
            let takes = board[to] != EMPTY;
            list.extend(pieces.into_iter().map(|piece| (from, to, takes, piece)));
        }
    }
    list.retain(|&chosen| !in_check(&moved(board, side, chosen), side));
    list.sort();
    list
}

fn won_within(board: &Letters, side: Side, plies: u8) -> bool {
    plies > 0
        && moves(board, side)
            .into_iter()
            .any(|chosen| lost_within(&moved(board, side, chosen), side.other(), plies - 1))
}

fn lost_within(board: &Letters, side: Side, plies: u8) -> bool {
    let list = moves(board, side);
    if list.is_empty() {
        return in_check(board, side);
    }
    plies > 0
        && list
            .into_iter()
            .all(|chosen| won_within(&moved(board, side, chosen), side.other(), plies - 1))
}

/// The least number of plies, up to those given, within which the position is won or lost.
pub fn opinion(board: &Letters, side: Side, plies: u8) -> Opinion {
    let found = (0..=plies).find_map(|within| {
        if won_within(board, side, within) {
            return Some(Opinion::Win(within));
        }
        lost_within(board, side, within).then_some(Opinion::Loss(within))
    });
    found.unwrap_or(Opinion::NotWithin)
}
