//! Self tests of one study, one move: a turned position has its move turned.

use crate::number::{position_of, NUMBERS};
use crate::position::{Keyed, Position, MEN};
use crate::rules::{legal, Move};
use crate::selftest::{expect, Test, Truth, Verdict};
use crate::symmetry::{mapped, mapped_back, position_mapped};
use crate::table::{look_up, Answer};

pub const TESTS: &[Test] = &[
    ("a map taken back leads to the square it came from", maps_back),
    (
        "turned or exchanged, a position has its move turned; where two maps fit, mirrored exactly \
         under an exchange of file and rank",
        moves_turned,
    ),
];

fn maps_back(_: &Truth) -> Verdict {
    for map in 0..8 {
        for square in 0..64 {
            let there = mapped_back(map, mapped(map, square)) == square;
            let back = mapped(map, mapped_back(map, square)) == square;
            expect(there && back, || format!("map {map} and square {square}"))?;
        }
    }
    Ok(())
}

fn turned(map: u8, chosen: Move) -> Move {
    Move { from: mapped(map, chosen.from), to: mapped(map, chosen.to), ..chosen }
}

/// The answer due after a turn: the exchange of file and rank mirrors a position that it leaves
/// as it is, and the move that is carried back without it.
fn answer_turned(map: u8, numbered: &Position, answer: Answer) -> Answer {
    let mirrored = map & 4 != 0 && position_mapped(4, numbered) == *numbered;
    let turn = |chosen| turned(map, if mirrored { turned(4, chosen) } else { chosen });
    Answer { best: answer.best.map(turn), ..answer }
}

/// All images of every numbered position, which are all positions.
fn moves_turned(truth: &Truth) -> Verdict {
    let (mut fitted, mut mirrored) = (0, 0);
    for man in MEN {
        let table = truth.table(man);
        let answer_of = |keyed: &Keyed| look_up(table, keyed).map_err(|r| format!("{r:?}"));
        let numbered = (0..NUMBERS).filter_map(|number| position_of(man, number));
        for position in numbered.filter(legal) {
            let answer = answer_of(&position.keyed())?;
            fitted += (position_mapped(4, &position) == position) as u32;
            for map in 0..8 {
                let there = position_mapped(map, &position).keyed();
                let due = answer_turned(map, &position, answer);
                mirrored += (due.best != answer.best.map(|best| turned(map, best))) as u32;
                for keyed in [there, there.exchanged()] {
                    let found = answer_of(&keyed)?;
                    expect(found == due, || format!("{keyed:?}: {found:?}, not {due:?}"))?;
                }
            }
        }
    }
    expect(fitted > 0 && mirrored > 0, || format!("{fitted} fitted, {mirrored} mirrored"))
}
