//! Self tests of look-up with two men.

use crate::four_number::{least, NUMBERS_OF_TWO};
use crate::four_samples;
use crate::four_table::look_up;
use crate::laws::{legal, moves, play};
use crate::number::NUMBERS;
use crate::placement::Placement;
use crate::plain;
use crate::position::{Position, Refused};
use crate::rule::{value, Value, DRAW};
use crate::rules::Move;
use crate::samples::Sequence;
use crate::search::Opinion;
use crate::selftest::{expect, Verdict};
use crate::selftest_four::{drawn, FourTest, FourTruth, Large};
use crate::symmetry::mapped;
use crate::table::{self, Answer};
use crate::{ending, four_number, number};

pub const TESTS: &[FourTest] = &[
    ("look-up's value and move by 02's words, in either colour and order of slots", by_the_words),
    ("turning a position turns its move, but for the mirror pair", turned),
    ("look-up's depths up to 3 by the slow search", slow_search),
    ("7 of all lengths, 11 by what all tables require, and 17 never", refusals),
    ("one man is looked up as before", one_man),
];

fn look(truth: &FourTruth, large: &Large, placement: &Placement) -> Result<Answer, Refused> {
    look_up(&large.bytes, truth.small.bytes(large.ending), &placement.keyed())
}

/// The true byte of what a move left, read without the tables' own reader.
fn byte_of(truth: &FourTruth, placement: &Placement) -> u8 {
    if let Some((of, board)) = ending::arranged(placement) {
        let large = truth.large.iter().find(|large| large.ending == of);
        return large.map_or(0, |large| large.bytes[four_number::least(of, &board).0]);
    }
    let Some(position) = placement.alone() else { return DRAW };
    let same = truth.large.iter().find(|large| large.ending.first == position.man);
    same.map_or(0, |large| truth.small.bytes(large.ending)[0][number::number_of(&position)])
}

/// Every suiting move of a board, in list order.
fn suiting(truth: &FourTruth, placement: &Placement, held: Value) -> Vec<Move> {
    let wanted = table::wanted(held);
    let list = moves(placement);
    let suits = |chosen: &Move| Some(value(byte_of(truth, &play(placement, *chosen)))) == wanted;
    list.as_slice().iter().copied().filter(suits).collect()
}

fn legal_drawn(sequence: &mut Sequence, of: ending::Ending) -> Placement {
    loop {
        let placement = drawn(sequence, of);
        if legal(&placement) {
            return placement;
        }
    }
}

fn by_the_words(truth: &FourTruth) -> Verdict {
    let mut sequence = Sequence(50);
    let drawn = truth.large.iter().flat_map(|large| {
        (0..1_500).map(|_| legal_drawn(&mut sequence, large.ending)).collect::<Vec<_>>()
    });
    for placement in drawn.chain(four_samples::chosen().filter(legal)) {
        let Some((of, board)) = ending::arranged(&placement) else { continue };
        let Some(large) = truth.large.iter().find(|large| large.ending == of) else { continue };
        let found = look(truth, large, &placement);
        let held = value(byte_of(truth, &placement));
        // The normal board is the position at the number; some map takes this board to it.
        let normal = four_number::position_of(of, least(of, &board).0);
        let Some(normal) = normal else { return Err(format!("{placement:?} has no number")) };
        let same = |one: &Placement, other: &Placement| {
            one.kings == other.kings && one.occupied() == other.occupied()
        };
        // Maps 0 to 3 come first: those without the exchange of file and rank.
        let map = (0..8).find(|&map| {
            let turned = board.mapped(|square| mapped(map, square));
            same(&turned, &normal) && (turned.men == normal.men || of.like())
        });
        let Some(map) = map else { return Err(format!("no map for {placement:?}")) };
        let back = |square| (0..64).find(|&from| mapped(map, from) == square).unwrap_or(64);
        let best = suiting(truth, &normal, held).first().map(|&m| Move {
            from: back(m.from),
            to: back(m.to),
            takes: m.takes,
        });
        let due = Answer { value: held, best };
        expect(found == Ok(due), || format!("{placement:?}: {found:?}, not {due:?}"))?;
        let own = suiting(truth, &placement, held);
        let given = best.map_or(own.is_empty(), |best| own.contains(&best));
        expect(given, || format!("{placement:?}: {best:?} does not suit"))?;
    }
    Ok(())
}

fn turned(truth: &FourTruth) -> Verdict {
    let mut sequence = Sequence(51);
    for large in &truth.large {
        for _ in 0..300 {
            let placement = legal_drawn(&mut sequence, large.ending);
            let Ok(here) = look(truth, large, &placement) else {
                return Err(format!("{placement:?} is refused"));
            };
            let Some((of, board)) = ending::arranged(&placement) else { continue };
            for map in 0..8 {
                let turn = |square| mapped(map, square);
                let image = placement.mapped(turn);
                let found = look(truth, large, &image).map(|there| (there.value, there.best));
                let carried = here.best.map(|m| Move { from: turn(m.from), to: turn(m.to), ..m });
                // Where two maps fit, the mirror move is the same choice.
                let mirrored = (4..8).any(|other| {
                    given(of, &board, other) == given(of, &board, least(of, &board).1)
                });
                let right = found == Ok((here.value, carried)) || mirrored;
                expect(right, || format!("{image:?}: {found:?}, not {carried:?}"))?;
            }
        }
    }
    Ok(())
}

/// The squares of kings and men under a map; like men's in rising order.
fn given(of: ending::Ending, board: &Placement, map: u8) -> [u8; 4] {
    let turned = board.mapped(|square| mapped(map, square));
    let mut men = turned.men.map(|man| man.map_or(64, |man| man.square));
    if of.like() {
        men.sort();
    }
    [turned.kings[0], turned.kings[1], men[0], men[1]]
}

fn slow_search(truth: &FourTruth) -> Verdict {
    let mut sequence = Sequence(52);
    for large in &truth.large {
        for _ in 0..25 {
            let placement = legal_drawn(&mut sequence, large.ending);
            let found = look(truth, large, &placement).map(|answer| answer.value);
            let due = match found {
                Ok(Value::Win(depth)) if depth <= 3 => Opinion::Win(depth),
                Ok(Value::Loss(depth)) if depth <= 3 => Opinion::Loss(depth),
                _ => Opinion::NotWithin,
            };
            let said = plain::opinion(&placement.keyed(), 3);
            expect(said == due, || format!("{placement:?}: {said:?}, not {found:?}"))?;
        }
    }
    Ok(())
}

fn refusals(truth: &FourTruth) -> Verdict {
    let Some(large) = truth.of("KQKR") else { return Err("no KQKR".to_string()) };
    let Some(keyed) = four_samples::keyed_of("w a1 h8 Ra2 qc2") else {
        return Err("no position".to_string());
    };
    let small = truth.small.bytes(large.ending);
    let short = &small[0][1..];
    for (own, lent) in [
        (&large.bytes[1..], small),
        (small[0], small),
        (&large.bytes[..], [short, small[1]]),
        (&large.bytes[..], [small[0], short]),
    ] {
        let found = look_up(own, lent, &keyed);
        expect(found == Err(Refused(7)), || format!("{found:?}"))?;
    }
    // White takes the queen: a rook's table of all draws says draw where the true one says win.
    let right = look_up(&large.bytes, small, &keyed).map(|answer| answer.value);
    expect(matches!(right, Ok(Value::Win(_))), || format!("{right:?}"))?;
    let draws = vec![DRAW; NUMBERS];
    let wrong = look_up(&large.bytes, [small[0], &draws], &keyed);
    expect(wrong == Err(Refused(11)), || format!("{wrong:?}"))?;
    // A table that the checker would not accept, but whose bytes here are all draws: no 17.
    let all_draws = look_up(&vec![DRAW; NUMBERS_OF_TWO], [&draws, &draws], &keyed);
    let drawn = all_draws.map(|answer| answer.value) == Ok(Value::Draw);
    expect(drawn, || format!("{all_draws:?}"))
}

fn one_man(truth: &FourTruth) -> Verdict {
    for (man, name) in ["KQQK", "KRRK", "KBBK", "KNNK"].into_iter().enumerate() {
        let Some(large) = truth.of(name) else { return Err(name.to_string()) };
        let own = truth.small.bytes(large.ending)[0];
        for number in 0..NUMBERS {
            let position: Option<Position> = number::position_of(crate::position::MEN[man], number);
            let Some(keyed) = position.map(|position| position.keyed()) else { continue };
            let found = look_up(own, [&[], &[]], &keyed);
            expect(found == table::look_up(own, &keyed), || format!("{name} {number}"))?;
        }
    }
    Ok(())
}
