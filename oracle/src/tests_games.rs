//! Self tests of whole games: the desk's moves against any replies.

use crate::number::{position_of, NUMBERS};
use crate::plain::{self, PlainMove};
use crate::position::{Keyed, Position, Side, MEN, SIDES};
use crate::rule::{Value, MATED};
use crate::rules::{in_check, legal_position, moves, play, Move};
use crate::samples::Sequence;
use crate::selftest::{every_keyed, expect, Test, Truth, Verdict};
use crate::table::look_up;

pub const TESTS: &[Test] = &[
    (
        "desk against desk: mate after exactly the plies called, from every decided number",
        desk_games,
    ),
    (
        "desk against any replies, by a plain reading and with both colours: what was called is \
         kept, in 16,000 games",
        any_replies,
    ),
];

/// How a game ended, and after how many plies.
#[derive(Debug, PartialEq, Eq)]
enum Ending {
    Mated(Side, u32),
    Drawn,
    BrokenOff,
    /// A move was played that is none.
    NoMove,
}

/// No depth is as great, so a game still open then is nobody's win.
const LONGEST: u32 = 60;

/// Plays on from a legal position, each move chosen from the position then on the board.
fn game(start: &Position, mut choose: impl FnMut(&Position) -> Option<Move>) -> Ending {
    let mut position = *start;
    for plies in 0..LONGEST {
        if moves(&position).as_slice().is_empty() {
            let mated = in_check(&position);
            return if mated { Ending::Mated(position.side, plies) } else { Ending::Drawn };
        }
        match choose(&position).map(|chosen| play(&position, chosen)) {
            Some(Some(next)) => position = next,
            Some(None) => return Ending::Drawn,
            None => return Ending::BrokenOff,
        }
    }
    Ending::BrokenOff
}

fn desk_move(table: &[u8], position: &Position) -> Option<Move> {
    look_up(table, &position.keyed()).ok()?.best
}

/// A game of the desk against itself ends as called, or not within LONGEST plies.
fn as_called(value: Value, side: Side, ending: &Ending) -> bool {
    match value {
        Value::Win(depth) => *ending == Ending::Mated(side.other(), depth as u32),
        Value::Loss(depth) => *ending == Ending::Mated(side, depth as u32),
        Value::Draw => !matches!(ending, Ending::Mated(..)),
    }
}

fn desk_games(truth: &Truth) -> Verdict {
    for man in MEN {
        let table = truth.table(man);
        // Every decided number, and of the drawn ones, whose games run on, every sixteenth.
        let chosen = (0..NUMBERS).filter(|&n| table[n] >= MATED || n % 16 == 0);
        for position in chosen.filter_map(|number| position_of(man, number)) {
            let Ok(answer) = look_up(table, &position.keyed()) else { continue };
            let ending = game(&position, |now| desk_move(table, now));
            let right = as_called(answer.value, position.side, &ending);
            expect(right, || format!("{position:?}: {:?}, {ending:?}", answer.value))?;
        }
    }
    Ok(())
}

/// What a side that plays the desk's moves keeps, `value` being called for that side at
/// the start: a win in no more plies, a loss in no fewer, and never less than a draw.
fn kept(value: Value, desk: Side, ending: &Ending) -> bool {
    match (value, ending) {
        (Value::Win(depth), Ending::Mated(side, plies)) => *side != desk && *plies <= depth as u32,
        (_, Ending::NoMove) | (Value::Win(_), _) => false,
        (Value::Loss(depth), Ending::Mated(side, plies)) => *side != desk || *plies >= depth as u32,
        (Value::Draw, Ending::Mated(side, _)) => *side != desk,
        _ => true,
    }
}

/// The value called for one side, whoever is to move.
fn called_for(desk: Side, to_move: Side, value: Value) -> Value {
    match value {
        Value::Win(depth) if to_move != desk => Value::Loss(depth),
        Value::Loss(depth) if to_move != desk => Value::Win(depth),
        _ => value,
    }
}

fn to_move(keyed: &Keyed) -> Side {
    SIDES[keyed.side as usize & 1]
}

/// A game on the record as keyed, by the plain reading of the Laws: nothing is exchanged.
fn plain_game(
    start: &Keyed,
    mut choose: impl FnMut(&Keyed, &[PlainMove]) -> Option<PlainMove>,
) -> Ending {
    let mut keyed = *start;
    for plies in 0..LONGEST {
        let list = plain::moves(&keyed);
        if list.is_empty() && plain::side_in_check(&keyed) {
            return Ending::Mated(to_move(&keyed), plies);
        }
        if list.is_empty() || keyed.men == [None, None] {
            return Ending::Drawn;
        }
        match choose(&keyed, &list) {
            Some(chosen) if list.contains(&chosen) => keyed = plain::after(&keyed, chosen),
            _ => return Ending::NoMove,
        }
    }
    Ending::BrokenOff
}

fn any_replies(truth: &Truth) -> Verdict {
    let mut sequence = Sequence(16);
    for man in MEN {
        let table = truth.table(man);
        let starts: Vec<_> =
            every_keyed(man).filter(|keyed| legal_position(keyed).is_ok()).collect();
        for turn in 0..4_000 {
            let keyed = starts[sequence.below(starts.len() as u64) as usize % starts.len()];
            let Ok(answer) = look_up(table, &keyed) else {
                return Err(format!("{keyed:?} is refused"));
            };
            let desk = SIDES[turn % 2];
            let ending = plain_game(&keyed, |now, list| {
                let any = sequence.below(list.len() as u64) as usize;
                if to_move(now) == desk {
                    let best = look_up(table, now).ok()?.best?;
                    Some((best.from, best.to, best.takes))
                } else {
                    list.get(any).copied()
                }
            });
            let right = kept(called_for(desk, to_move(&keyed), answer.value), desk, &ending);
            expect(right, || format!("{keyed:?} for {desk:?}: {:?}, {ending:?}", answer.value))?;
        }
    }
    Ok(())
}
