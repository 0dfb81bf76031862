//! Check, legality and legal moves of two kings and a lone pawn, by the Laws of Chess.

use crate::board::{bit, holds, king_attack, rank, stepped, Square, SquareSet, Squares};
use crate::pawn_position::PawnPosition;
use crate::placement::{Owned, Placement};
use crate::position::{Keyed, Man, Refused, Side, MEN};
use crate::rules::{move_name, Move};

/// A move; a promotion names the piece.
#[derive(Clone, Copy, PartialEq, Eq, Debug, Default)]
pub struct PawnMove {
    pub from: Square,
    pub to: Square,
    pub takes: bool,
    pub promotes: Option<Man>,
}

/// What a move leaves.
#[derive(Clone, Copy, PartialEq, Eq, Debug)]
pub enum After {
    Pawn(PawnPosition),
    /// The pawn has become a piece: one man, of the pawn's side.
    Promoted(Placement),
    /// The pawn is taken.
    BareKings,
}

/// One rank ahead: White's pawns go up the board, Black's down.
fn forward(colour: Side) -> i8 {
    match colour {
        Side::White => 1,
        Side::Black => -1,
    }
}

/// The squares diagonally in front of a pawn: those it attacks, occupied or not.
pub fn pawn_attack(colour: Side, pawn: Square) -> SquareSet {
    let aslant = [-1, 1].map(|file| stepped(pawn, (file, forward(colour))));
    aslant.into_iter().flatten().fold(0, |set, square| set | bit(square))
}

/// Does the pawn see a side's king? The kings never touch, so the other king does not.
fn attacked(position: &PawnPosition, side: Side) -> bool {
    let PawnPosition { colour, pawn, .. } = *position;
    side != colour && holds(pawn_attack(colour, pawn), position.king(side))
}

/// Is the side to move in check?
pub fn in_check(position: &PawnPosition) -> bool {
    attacked(position, position.side)
}

/// "Side not to move not in check": the part of legality left after placing.
pub fn legal(position: &PawnPosition) -> bool {
    !attacked(position, position.side.other())
}

/// Refusals 1, 2, 3, 18, 4, 5, 6, for the move list and look-up.
pub fn legal_pawn(keyed: &Keyed) -> Result<PawnPosition, Refused> {
    let position = keyed.pawn_placed()?;
    if legal(&position) {
        Ok(position)
    } else {
        Err(Refused(6))
    }
}

/// Where the king may go. A square that the pawn guards is closed to the other side's king; its
/// own square is guarded only by its king.
fn king_targets(position: &PawnPosition) -> SquareSet {
    let PawnPosition { side, colour, pawn, .. } = *position;
    let free = king_attack(position.king(side)) & !king_attack(position.king(side.other()));
    let closed = if side == colour { bit(pawn) } else { pawn_attack(colour, pawn) };
    free & !closed
}

/// One step to an empty square; two from the pawn's first rank if both are empty. A step aslant
/// takes a man, and of the other side there is only the king: none.
fn pawn_targets(position: &PawnPosition) -> Vec<Square> {
    let PawnPosition { kings, colour, pawn, .. } = *position;
    let ahead = |from| stepped(from, (0, forward(colour))).filter(|to| !kings.contains(to));
    let Some(one) = ahead(pawn) else { return vec![] };
    let first_rank = if colour == Side::White { 1 } else { 6 };
    let two = ahead(one).filter(|_| rank(pawn) == first_rank);
    [Some(one), two].into_iter().flatten().collect()
}

/// A step to the last rank is four moves, "each promotion a move of its own that names the piece".
fn with_promotions(from: Square, to: Square) -> Vec<PawnMove> {
    let plain = PawnMove { from, to, takes: false, promotes: None };
    if rank(to) == 0 || rank(to) == 7 {
        MEN.map(|man| PawnMove { promotes: Some(man), ..plain }).to_vec()
    } else {
        vec![plain]
    }
}

/// The legal moves of a legal position by from-square, to-square, then Q, R, B, N. The pawn leaves
/// its king in no line: the other side has but a king.
pub fn moves(position: &PawnPosition) -> Vec<PawnMove> {
    let PawnPosition { side, colour, pawn, .. } = *position;
    let king = position.king(side);
    let mut list: Vec<PawnMove> = Squares(king_targets(position))
        .map(|to| PawnMove { from: king, to, takes: to == pawn, promotes: None })
        .collect();
    if side == colour {
        list.extend(pawn_targets(position).into_iter().flat_map(|to| with_promotions(pawn, to)));
    }
    list.sort_by_key(|chosen| (chosen.from, chosen.to, chosen.promotes.map(Man::code)));
    list
}

/// What a legal move leaves; the other side has the move.
pub fn play(position: &PawnPosition, chosen: PawnMove) -> After {
    let PawnMove { from, to, takes, promotes } = chosen;
    if takes {
        return After::BareKings;
    }
    let step = |square: Square| if square == from { to } else { square };
    let PawnPosition { side, kings, colour, pawn } = *position;
    let (side, kings, pawn) = (side.other(), kings.map(step), step(pawn));
    match promotes {
        Some(kind) => {
            let man = Owned { kind, colour, square: pawn };
            After::Promoted(Placement { side, kings, men: [Some(man), None] })
        }
        None => After::Pawn(PawnPosition { side, kings, colour, pawn }),
    }
}

/// A move as the desk writes it, a promotion with the piece's small letter: `a7a8q`.
pub fn pawn_move_name(chosen: PawnMove) -> String {
    let PawnMove { from, to, takes, promotes } = chosen;
    let piece = promotes.map(|man| man.letter().to_ascii_lowercase() as char);
    move_name(Move { from, to, takes }) + &piece.map(String::from).unwrap_or_default()
}
