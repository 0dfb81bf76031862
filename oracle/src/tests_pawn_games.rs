//! Self tests of games with a pawn, through promotions until mate, stalemate or bare kings.

use crate::pawn_counts::PawnTruth;
use crate::pawn_plain;
use crate::pawn_rules::{legal, PawnMove};
use crate::pawn_samples::drawn;
use crate::position::{Keyed, KeyedMan, Man, Side};
use crate::rule::Value;
use crate::samples::Sequence;
use crate::selftest::{expect, Verdict};
use crate::selftest_pawn::PawnTest;
use crate::table;
use crate::tests_pawn_look_up::slip;

pub const TESTS: &[PawnTest] = &[("games through promotions: mate in time, never worse", games)];

/// What is on the board in a game: the pawn, then perhaps the man it has become.
fn game_look(truth: &PawnTruth, keyed: &Keyed) -> Result<(Value, Option<PawnMove>), String> {
    let kind = keyed.men[0].map_or(255, |man| man.kind);
    let found = match Man::from_code(kind) {
        Some(man) => table::look_up(&truth.lent[man as usize], keyed).map(|answer| {
            let best = answer.best.map(|m| PawnMove {
                from: m.from,
                to: m.to,
                takes: m.takes,
                promotes: None,
            });
            (answer.value, best)
        }),
        None => slip(truth, keyed).map(|answer| (answer.value, answer.best)),
    };
    found.map_err(|refused| format!("{keyed:?}: {refused:?}"))
}

/// The record after a move of the slow reading; none of the fast rules has a part in it.
fn keyed_after(keyed: &Keyed, (from, to, _, piece): pawn_plain::LettersMove) -> Keyed {
    let step = |square: u8| if square as usize == from { to as u8 } else { square };
    let men = keyed.men.map(|man| {
        let left = man.filter(|man| man.square as usize != to);
        left.map(|man| {
            let moves = man.square as usize == from;
            let kind = piece.filter(|_| moves).map_or(man.kind, |piece| piece as u8);
            KeyedMan { kind, square: step(man.square), ..man }
        })
    });
    let (white_king, black_king) = (step(keyed.white_king), step(keyed.black_king));
    Keyed { side: 1 - keyed.side, white_king, black_king, men }
}

/// Did a game of so many plies, with this side mated or none, end as it was called for the desk?
fn ended_right(called: Value, won: bool, desk: Side, plies: u32, mated: Option<Side>) -> bool {
    match called {
        Value::Win(n) | Value::Loss(n) if won => mated == Some(desk.other()) && plies <= n as u32,
        // The loser who follows the desk holds out at least as long.
        Value::Win(n) | Value::Loss(n) => mated != Some(desk) || plies >= n as u32,
        Value::Draw => mated != Some(desk),
    }
}

fn game(truth: &PawnTruth, sequence: &mut Sequence, first: &Keyed, desk: Side) -> Verdict {
    let called = game_look(truth, first)?.0;
    let won = match called {
        Value::Win(_) => first.side == desk.code(),
        Value::Loss(_) => first.side != desk.code(),
        Value::Draw => false,
    };
    let mut keyed = *first;
    for plies in 0..300u32 {
        let side = if keyed.side == 0 { Side::White } else { Side::Black };
        let board = pawn_plain::letters(&keyed);
        let list = pawn_plain::moves(&board, side);
        if list.is_empty() || keyed.men[0].is_none() {
            let mated = list.is_empty() && pawn_plain::in_check(&board, side);
            let right = ended_right(called, won, desk, plies, mated.then_some(side));
            return expect(right, || format!("{first:?} after {plies}: {called:?}"));
        }
        let any = list[sequence.below(list.len() as u64) as usize % list.len()];
        let chosen = if side == desk {
            let best = game_look(truth, &keyed)?.1.unwrap_or_default();
            let piece = best.promotes.map(|man| man as usize);
            (best.from as usize, best.to as usize, best.takes, piece)
        } else {
            any
        };
        expect(list.contains(&chosen), || format!("{keyed:?}: {chosen:?}"))?;
        keyed = keyed_after(&keyed, chosen);
    }
    expect(!won, || format!("{first:?} has not ended"))
}

fn games(truth: &PawnTruth) -> Verdict {
    let mut sequence = Sequence(75);
    for turn in 0..4_000 {
        let position = drawn(&mut sequence);
        if legal(&position) {
            let desk = if turn % 2 == 0 { Side::White } else { Side::Black };
            game(truth, &mut sequence, &position.keyed(), desk)?;
        }
    }
    Ok(())
}
