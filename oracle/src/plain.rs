//! The Laws read a second time, slowly, on a board of 64 places and with the men's own colours,
//! for the self test alone: walk each line, make each move, see whether the king could be taken.

use crate::board::{stepped, Square, Step, KING_STEPS, KNIGHT_STEPS};
use crate::placement::Limit;
use crate::position::{Keyed, KeyedMan, Man, Side};
use crate::search::Opinion;

#[derive(Clone, Copy, PartialEq, Eq)]
enum Piece {
    King,
    Man(Man),
}

type Board = [Option<(Side, Piece)>; 64];

/// From, to, and whether a man stood there.
pub type PlainMove = (Square, Square, bool);

/// What stands on the board; bytes that name nothing stand nowhere.
fn board_of(keyed: &Keyed) -> Board {
    let mut board = [None; 64];
    let mut stand = |square: u8, what| {
        if let Some(place) = board.get_mut(square as usize) {
            *place = what;
        }
    };
    stand(keyed.white_king, Some((Side::White, Piece::King)));
    stand(keyed.black_king, Some((Side::Black, Piece::King)));
    for man in keyed.men.into_iter().flatten() {
        let what = Side::from_code(man.colour).zip(Man::from_code(man.kind));
        stand(man.square, what.map(|(colour, kind)| (colour, Piece::Man(kind))));
    }
    board
}

/// A piece's steps, and whether it goes on in the same direction.
fn steps(piece: Piece) -> (&'static [Step], bool) {
    match piece {
        Piece::King => (&KING_STEPS, false),
        Piece::Man(Man::Queen) => (&KING_STEPS, true),
        Piece::Man(Man::Rook) => (&KING_STEPS[..4], true),
        Piece::Man(Man::Bishop) => (&KING_STEPS[4..], true),
        Piece::Man(Man::Knight) => (&KNIGHT_STEPS, false),
    }
}

/// The squares a piece attacks, up to and with the first man on each line.
fn attacked(board: &Board, from: Square, piece: Piece) -> Vec<Square> {
    let (steps, goes_on) = steps(piece);
    let mut squares = Vec::new();
    for &step in steps {
        let mut at = from;
        while let Some(to) = stepped(at, step) {
            squares.push(to);
            at = to;
            if !goes_on || board[to as usize].is_some() {
                break;
            }
        }
    }
    squares
}

fn in_check(board: &Board, side: Side) -> bool {
    let king = board.iter().position(|&place| place == Some((side, Piece::King)));
    (0..64).any(|from| match board[from as usize] {
        Some((owner, piece)) if owner != side => {
            attacked(board, from, piece).iter().any(|&to| Some(to as usize) == king)
        }
        _ => false,
    })
}

/// The board after a move.
fn moved(board: &Board, from: Square, to: Square) -> Board {
    let mut after = *board;
    after[to as usize] = after[from as usize].take();
    after
}

/// The legal moves of a side in list order.
fn moves_on(board: &Board, side: Side) -> Vec<PlainMove> {
    let mut list = Vec::new();
    for from in 0..64 {
        let Some((owner, piece)) = board[from as usize] else { continue };
        if owner != side {
            continue;
        }
        for to in attacked(board, from, piece) {
            let own = board[to as usize].is_some_and(|(other, _)| other == owner);
            if !own && !in_check(&moved(board, from, to), owner) {
                list.push((from, to, board[to as usize].is_some()));
            }
        }
    }
    list.sort();
    list
}

/// The side to move; a byte that is no side counts as White's, and is refused elsewhere.
fn side_of(keyed: &Keyed) -> Side {
    Side::from_code(keyed.side).unwrap_or(Side::White)
}

/// The legal moves in list order.
pub fn moves(keyed: &Keyed) -> Vec<PlainMove> {
    moves_on(&board_of(keyed), side_of(keyed))
}

/// Is the side to move in check?
pub fn side_in_check(keyed: &Keyed) -> bool {
    in_check(&board_of(keyed), side_of(keyed))
}

/// The record after a move: a man that stood on the target is off the board.
pub fn after(keyed: &Keyed, (from, to, _): PlainMove) -> Keyed {
    let step = |square: u8| if square == from { to } else { square };
    let men = keyed.men.map(|man| {
        let left = man.filter(|man| man.square != to);
        left.map(|man| KeyedMan { square: step(man.square), ..man })
    });
    Keyed {
        side: side_of(keyed).other().code(),
        white_king: step(keyed.white_king),
        black_king: step(keyed.black_king),
        men,
    }
}

fn won_within(board: &Board, side: Side, plies: u8) -> bool {
    plies > 0
        && moves_on(board, side)
            .into_iter()
            .any(|(from, to, _)| lost_within(&moved(board, from, to), side.other(), plies - 1))
}

fn lost_within(board: &Board, side: Side, plies: u8) -> bool {
    let list = moves_on(board, side);
    if list.is_empty() {
        return in_check(board, side);
    }
    plies > 0
        && list
            .into_iter()
            .all(|(from, to, _)| won_within(&moved(board, from, to), side.other(), plies - 1))
}

/// The least number of plies, up to those given, within which the position is won or lost.
pub fn opinion(keyed: &Keyed, plies: u8) -> Opinion {
    let (board, side) = (board_of(keyed), side_of(keyed));
    let found = (0..=plies).find_map(|within| {
        if won_within(&board, side, within) {
            return Some(Opinion::Win(within));
        }
        lost_within(&board, side, within).then_some(Opinion::Loss(within))
    });
    found.unwrap_or(Opinion::NotWithin)
}

/// The lowest refusal from 1 to 6 that applies to one man's position.
pub fn lowest_refusal(keyed: &Keyed) -> Option<u8> {
    lowest_refusal_of(keyed, Limit::OneMan)
}

/// The lowest refusal from 1 to 6 that applies, each asked on its own.
pub fn lowest_refusal_of(keyed: &Keyed, limit: Limit) -> Option<u8> {
    let Keyed { side, white_king, black_king, men } = *keyed;
    let present: Vec<KeyedMan> = men.into_iter().flatten().collect();
    let one = men[0].is_some() && (men[1].is_none() || limit == Limit::TwoMen);
    let kinds = present.iter().all(|man| man.kind <= 3);
    let colours = present.iter().all(|man| man.colour <= 1);
    let mut squares: Vec<u8> = present.iter().map(|man| man.square).collect();
    squares.extend([white_king, black_king]);
    let on_board = squares.iter().all(|&square| square < 64);
    let shared = (1..squares.len()).any(|place| squares[..place].contains(&squares[place]));
    let near = |x: u8, y: u8| x.abs_diff(y) <= 1;
    let touch = on_board
        && white_king != black_king
        && near(white_king / 8, black_king / 8)
        && near(white_king % 8, black_king % 8);
    let waiting_in_check = in_check(&board_of(keyed), side_of(keyed).other());
    let applies =
        [!one || !kinds, side > 1 || !colours, !on_board, shared, touch, waiting_in_check];
    applies.iter().position(|&yes| yes).map(|place| place as u8 + 1)
}
