//! Positions of the pawn's ending for the test program: chosen for what they show, drawn from a
//! fixed sequence, and refused ones.

use crate::desk::read_position;
use crate::pawn_position::{PawnPosition, PAWN};
use crate::pawn_rules::legal;
use crate::position::{Keyed, KeyedMan, Side, SIDES};
use crate::samples::Sequence;

/// Pawn (`P` White's, `p` Black's), side to move, white king, pawn's square, black king.
#[rustfmt::skip]
const CHOSEN: &[&str] = &[
    // 02's case, its mirror, Black's pawn, and both turned.
    "P w c2 a7 a1", "P w f2 h7 h1", "p b a8 a2 c7", "p b h8 h2 f7",
    // The same with the other side to move, and with the other side's pawn.
    "P b c2 a7 a1", "p b c2 a7 a1", "p w a8 a2 c7", "P w a8 a2 c7",
    // Two steps from the first rank, one square or both occupied, and no two steps from another.
    "P w e1 e2 e8", "P w e3 e2 e8", "P w e4 e2 e8", "P w a1 e2 e3", "P w a1 e2 e4", "P w e1 e3 e8",
    "p b e1 e7 e8", "p b e1 e7 e6", "p b e1 e7 e5", "p b e6 e7 a1", "p b e5 e7 a1", "p b e1 e6 e8",
    // A pawn that cannot step, before its last rank too.
    "P w d5 d4 h1", "P w a8 a7 c7", "P w c7 a7 a8", "p b h3 h2 h1", "p b h1 h2 f2", "P b c7 a7 a8",
    // Check by the pawn: on either side, at the edge, and not from the rank before or straight.
    "P b e3 e4 d5", "P b e3 e4 f5", "P b e3 e4 e5", "P b a1 a4 b5", "P b h1 h4 g5", "P b a1 a4 h6",
    "p w d4 e5 e7", "p w f4 e5 e7", "p w e4 e5 e7", "p w b4 a5 a8", "p w g4 h5 h8", "P b e2 e4 d4",
    "P b h1 h4 a6", "P b a1 a6 h7", "p w h3 a5 a8", "p w a4 h4 h8",
    // The pawn is taken, or is guarded by its king.
    "P b a1 e4 e5", "P b a1 e4 d4", "P b a1 e4 f3", "P b a1 e4 e3", "P b d3 e4 e5", "P b f3 e4 d4",
    "p w e4 e5 a8", "p w d6 e5 a8", "p w e4 e5 d7", "p w f5 e5 e7",
    // The king keeps off the squares that the pawn guards.
    "P b a1 d4 d6", "P b a1 d4 c6", "P b a1 d4 e6", "p w d3 d5 a8", "p w c3 d5 a8", "P b g1 h5 g7",
    // Promotion: by force, with a rook because the queen would stalemate, lost at once, in check.
    "P w c6 c7 a7", "P w c6 b7 a7", "P w f6 f7 h7", "P w b6 c7 a8", "P w a1 h7 c7", "P w a1 g7 h7",
    "P w g6 g7 g1", "P w d6 e7 e3", "p b a2 c2 c3", "p b h2 f2 f3", "p b e6 d2 d3", "P b g6 g7 h8",
    // Stalemates, and what is nearly one: the pawn itself never mates.
    "P b g6 g7 g8", "P b f6 f7 f8", "P b a6 a7 a8", "P b b6 a7 a8", "P b c8 a7 a8", "p w c1 a2 a3",
    "P w f6 g6 h8", "P b f7 g6 h8", "P b f7 g7 h7", "p w h1 g2 f2", "p w h1 g3 f2", "P b c7 b6 a8",
    "P b h6 g7 g8", "P b f7 h7 h8", "p w a1 a2 c2", "p w f1 f2 f3",
    // Opposition, the rook's pawn, the square of the pawn.
    "P w e6 e5 e8", "P b e6 e5 e8", "P w d6 e5 e8", "P w e4 e3 e6", "P b e4 e3 e6", "P w b6 a6 b8",
    "P w b6 a5 a8", "P w h1 a2 f3", "P b h1 a2 f3", "P b h1 a4 e5", "P w c1 b2 e5", "p b e8 g7 d4",
    // The side not to move is in check: numbered, and its moves refused 6.
    "P w e3 e4 d5", "P w e3 e4 f5", "P w a1 a2 b3", "P w a1 h7 g8", "p b d4 e5 e7", "p b g1 h2 a8",
];

/// Kind, side, white king, square, black king, colour: each refused, some for several reasons.
#[rustfmt::skip]
const REFUSED: &[[u8; 6]] = &[
    [5, 0, 0, 8, 63, 0], [255, 0, 0, 8, 63, 0], [4, 2, 0, 8, 63, 0], [4, 255, 64, 0, 0, 0],
    [4, 0, 0, 8, 63, 2], [4, 1, 64, 0, 64, 255], [4, 0, 64, 8, 63, 0], [4, 0, 0, 64, 63, 0],
    [4, 1, 0, 8, 64, 1], [4, 1, 0, 255, 63, 1], [4, 0, 64, 0, 63, 0], [4, 0, 7, 0, 64, 0],
    [4, 0, 9, 0, 63, 0], [4, 0, 9, 7, 63, 1], [4, 1, 9, 56, 62, 0], [4, 1, 9, 63, 54, 1],
    [4, 0, 0, 0, 63, 0], [4, 0, 63, 63, 63, 0], [4, 1, 0, 7, 1, 1], [4, 0, 9, 60, 9, 0],
    [4, 0, 8, 8, 63, 0], [4, 0, 63, 8, 8, 0], [4, 1, 20, 8, 20, 1], [4, 1, 8, 8, 9, 1],
    [4, 0, 9, 8, 9, 0], [4, 0, 0, 20, 1, 0], [4, 1, 27, 8, 36, 1], [4, 0, 62, 15, 54, 0],
];

/// The same with a second man, his colour and square: a pawn is taken alone or not at all.
#[rustfmt::skip]
const WITH_A_SECOND: &[[u8; 9]] = &[
    [4, 0, 0, 8, 63, 0, 1, 0, 20], [0, 0, 0, 8, 63, 0, 4, 0, 20], [4, 0, 0, 8, 63, 0, 4, 1, 20],
    [4, 2, 64, 0, 63, 2, 0, 0, 0], [3, 1, 0, 20, 63, 1, 4, 1, 48],
];

/// A position in the layout of 01's lines.
pub fn keyed_of(text: &str) -> Option<Keyed> {
    let colour = match text.bytes().next()? {
        b'P' => Side::White,
        b'p' => Side::Black,
        _ => return None,
    };
    // The desk has no pawn: with a queen's letter the rest of the line reads alike.
    let keyed = read_position(format!("Q{}", text.get(1..)?).as_bytes()).ok()?;
    let man = keyed.men[0].map(|man| KeyedMan { kind: PAWN, colour: colour.code(), ..man });
    Some(Keyed { men: [man, None], ..keyed })
}

/// A placed position with a pawn, drawn from a sequence.
pub fn drawn(sequence: &mut Sequence) -> PawnPosition {
    loop {
        let mut pick = || SIDES[sequence.below(2) as usize & 1];
        let (side, colour) = (pick(), pick());
        let kings = [sequence.square(), sequence.square()];
        let position = PawnPosition { side, kings, colour, pawn: sequence.square() };
        if position.keyed().pawn_placed().is_ok() {
            return position;
        }
    }
}

/// How many legal positions are drawn.
const DRAWN: usize = 240;

fn refused() -> impl Iterator<Item = Keyed> {
    let one = REFUSED.iter().map(|&[kind, side, white, square, black, colour]| {
        Keyed::of_one([kind, colour, square], side, [white, black])
    });
    let two = WITH_A_SECOND.iter().map(
        |&[kind, side, white_king, square, black_king, colour, other, its, place]| {
            let first = Some(KeyedMan { kind, colour, square });
            let second = Some(KeyedMan { kind: other, colour: its, square: place });
            Keyed { side, white_king, black_king, men: [first, second] }
        },
    );
    one.chain(two)
}

/// The chosen positions, the drawn ones, and then the refused ones.
pub fn positions() -> Vec<Keyed> {
    let mut sequence = Sequence(70);
    let chosen = CHOSEN.iter().filter_map(|text| keyed_of(text));
    let drawn = std::iter::repeat_with(|| drawn(&mut sequence)).filter(legal).take(DRAWN);
    chosen.chain(drawn.map(|position| position.keyed())).chain(refused()).collect()
}

/// All texts above key something.
pub fn chosen_count() -> (usize, usize) {
    (CHOSEN.len(), CHOSEN.iter().filter(|text| keyed_of(text).is_some()).count())
}
