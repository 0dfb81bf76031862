//! What the oracle says of a lone pawn, as the library's words.

use second::fifty::look_up_pawn_counted;
use second::pawn_number;
use second::pawn_position::PawnPosition;
use second::pawn_rules::{legal_pawn, moves, play, After, PawnMove};
use second::position::{Keyed, KeyedMan, Man};

use crate::lent::{LIST_BYTES, PAWN, RUN_BYTES, SMALL_BYTES};
use crate::words::{number_word, placed_word, played_word, value_word, word, NOT_LEGAL};

/// A pawn and no second man: all else is answered as one man or two.
pub fn is_lone(keyed: &Keyed) -> bool {
    matches!(keyed.men, [Some(KeyedMan { kind, .. }), None] if kind as u32 == PAWN)
}

/// The four tables of one run; where it has another length each is too short.
pub fn parts(run: &[u8]) -> [&[u8]; 4] {
    match run.len() {
        RUN_BYTES => [0, 1, 2, 3].map(|kind| &run[kind * SMALL_BYTES..(kind + 1) * SMALL_BYTES]),
        _ => [&[]; 4],
    }
}

pub fn number(keyed: &Keyed) -> u64 {
    number_word(pawn_number::number(keyed))
}

/// The position of a number of king and pawn; there is no second man.
pub fn position(number: u32) -> u64 {
    word(pawn_number::back(PAWN as u8, number as u64), |position: PawnPosition| {
        placed_word(&position.keyed())
    })
}

/// From, to, whether it takes, and 0 or 1 + the piece that the pawn becomes.
pub fn move_bytes(chosen: PawnMove) -> [u8; 4] {
    let becomes = chosen.promotes.map_or(0, |man| 1 + man.code());
    [chosen.from, chosen.to, chosen.takes as u8, becomes]
}

/// The list's bytes and the answer.
pub fn list(keyed: &Keyed) -> ([u8; LIST_BYTES], u64) {
    let mut list = [0; LIST_BYTES];
    let answer = word(legal_pawn(keyed), |position| {
        let found = moves(&position);
        for (place, &chosen) in list.chunks_exact_mut(4).zip(&found) {
            place.copy_from_slice(&move_bytes(chosen));
        }
        (found.len() as u64) << 8
    });
    (list, answer)
}

/// What a move leaves, as keyed: a pawn, the piece that it has become, or bare kings.
fn after(position: &PawnPosition, chosen: PawnMove) -> Keyed {
    match play(position, chosen) {
        After::Pawn(next) => next.keyed(),
        After::Promoted(placement) => placement.keyed(),
        After::BareKings => {
            let king = |square: u8| if square == chosen.from { chosen.to } else { square };
            let [white_king, black_king] = position.kings.map(king);
            let side = position.side.other().code();
            Keyed { side, white_king, black_king, men: [None; 2] }
        }
    }
}

/// The position after a move, legal or not; a promotion must name its piece and no other move may.
pub fn played(keyed: &Keyed, from: u8, to: u8, becomes: u8) -> u64 {
    word(legal_pawn(keyed), |position| {
        let named = |chosen: &PawnMove| {
            let piece = chosen.promotes.map(Man::code).map_or(0, |code| code + 1);
            (chosen.from, chosen.to, piece) == (from, to, becomes)
        };
        let found = moves(&position).into_iter().find(named);
        found.map_or(NOT_LEGAL, |chosen| played_word(&after(&position, chosen)))
    })
}

/// Look-up with a count, the four small tables in one run.
pub fn look_up(keyed: &Keyed, count: u32, run: &[u8], table: &[u8]) -> u64 {
    word(look_up_pawn_counted(table, parts(run), keyed, count), |(answer, within_fifty)| {
        let best = answer.best.map(|best| u32::from_le_bytes(move_bytes(best)));
        value_word(answer.value, best) | (within_fifty as u64) << 25
    })
}
