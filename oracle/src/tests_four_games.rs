//! Self tests of games with two men, through captures until mate, stalemate or bare kings.

use crate::ending;
use crate::four_table::look_up;
use crate::laws::{in_check, legal, moves, play};
use crate::placement::Placement;
use crate::position::Side;
use crate::rule::Value;
use crate::rules::Move;
use crate::samples::Sequence;
use crate::selftest::{expect, Verdict};
use crate::selftest_four::{drawn, FourTest, FourTruth};

pub const TESTS: &[FourTest] =
    &[("games with the desk's moves against any: mate in time, never worse", games)];

/// Look-up in the tables of the men then on the board.
fn look(truth: &FourTruth, placement: &Placement) -> Result<(Value, Option<Move>), String> {
    let keyed = placement.keyed();
    let of = ending::arranged(placement).map(|(of, _)| of);
    let found = match (of, placement.men[0]) {
        (Some(of), _) => {
            let large = truth.large.iter().find(|large| large.ending == of);
            large.map(|large| look_up(&large.bytes, truth.small.bytes(of), &keyed))
        }
        (None, Some(man)) => {
            let large = truth.large.iter().find(|large| large.ending.first == man.kind);
            large.map(|large| look_up(truth.small.bytes(large.ending)[0], [&[], &[]], &keyed))
        }
        (None, None) => None,
    };
    match found {
        Some(Ok(answer)) => Ok((answer.value, answer.best)),
        other => Err(format!("{placement:?}: {other:?}")),
    }
}

/// Did a game of so many plies end as its first position was called for the desk's side?
fn ended_right(called: Value, first: Side, desk: Side, plies: u32, last: &Placement) -> bool {
    let mated =
        |loser: Side| last.side == loser && in_check(last) && moves(last).as_slice().is_empty();
    match called {
        Value::Win(depth) if first == desk => mated(desk.other()) && plies <= depth as u32,
        Value::Loss(depth) if first != desk => mated(desk.other()) && plies <= depth as u32,
        // The loser who follows the desk holds out at least as long.
        Value::Win(depth) | Value::Loss(depth) => !mated(desk) || plies >= depth as u32,
        Value::Draw => !mated(desk),
    }
}

fn game(truth: &FourTruth, sequence: &mut Sequence, first: Placement, desk: Side) -> Verdict {
    let called = look(truth, &first)?.0;
    let mut board = first;
    for plies in 0..120 {
        let list = moves(&board);
        let list = list.as_slice();
        if list.is_empty() || board.men[0].is_none() {
            let right = ended_right(called, first.side, desk, plies, &board);
            return expect(right, || format!("{first:?} after {plies}"));
        }
        let (_, best) = look(truth, &board)?;
        let any = list[sequence.below(list.len() as u64) as usize % list.len()];
        let chosen = if board.side == desk { best.unwrap_or_default() } else { any };
        expect(list.contains(&chosen), || format!("{board:?}: {chosen:?}"))?;
        board = play(&board, chosen);
    }
    let wins = called == Value::Draw || ended_right(called, first.side, desk, 120, &board);
    expect(wins, || format!("{first:?} has not ended"))
}

fn games(truth: &FourTruth) -> Verdict {
    let mut sequence = Sequence(60);
    for large in &truth.large {
        for turn in 0..200 {
            let placement = drawn(&mut sequence, large.ending);
            if legal(&placement) {
                let desk = if turn % 2 == 0 { Side::White } else { Side::Black };
                game(truth, &mut sequence, placement, desk)?;
            }
        }
    }
    Ok(())
}
