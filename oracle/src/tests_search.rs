//! Self tests of the plain search.

use crate::desk::read_position;
use crate::number::{position_of, NUMBERS};
use crate::plain;
use crate::position::{Man, Position, Refused, MEN};
use crate::rule::{value, Value};
use crate::rules::{legal, legal_position};
use crate::samples::{self, Sequence};
use crate::search::{lost_within, opinion, search, won_within, Opinion};
use crate::selftest::{every_keyed, expect, Test, Truth, Verdict};
use crate::symmetry::position_mapped;

pub const TESTS: &[Test] = &[
    ("the search within 0 to 3 plies is the table's on every used number", search_all),
    ("the search within 4, 5 and 6 plies is the table's, and 6 plies occur", search_sample),
    ("won within and lost within grow with the plies, and never both hold", within_grows),
    ("the search within 0 to 2 plies is a plain reading's, with both colours", search_plain),
    ("the search refuses 1 to 6, then 16 for more than 6 plies", search_refusals),
];

/// What the table's byte says of a search of so many plies.
fn told(byte: u8, plies: u8) -> Opinion {
    match value(byte) {
        Value::Win(depth) if depth <= plies => Opinion::Win(depth),
        Value::Loss(depth) if depth <= plies => Opinion::Loss(depth),
        _ => Opinion::NotWithin,
    }
}

fn legal_of(man: Man, number: usize) -> Option<Position> {
    position_of(man, number).filter(legal)
}

fn search_all(truth: &Truth) -> Verdict {
    for man in MEN {
        for number in 0..NUMBERS {
            let Some(position) = legal_of(man, number) else { continue };
            // Any map: the search knows nothing of the numbers.
            let turned = position_mapped((number % 8) as u8, &position);
            for plies in 0..=3 {
                let found = opinion(&turned, plies);
                let due = told(truth.table(man)[number], plies);
                expect(found == due, || format!("{turned:?} within {plies}: {found:?}"))?;
            }
        }
    }
    Ok(())
}

fn search_sample(truth: &Truth) -> Verdict {
    let mut sequence = Sequence(6);
    let mut deepest = 0;
    for turn in 0..4_000 {
        let man = MEN[turn % 4];
        let number = sequence.below(NUMBERS as u64) as usize;
        let Some(position) = legal_of(man, number) else { continue };
        for plies in 4..=6 {
            let found = opinion(&position, plies);
            let due = told(truth.table(man)[number], plies);
            expect(found == due, || format!("{position:?} within {plies}: {found:?}"))?;
            if let Opinion::Loss(depth) = found {
                deepest = depth.max(deepest);
            }
        }
    }
    expect(deepest == 6, || format!("the deepest loss found is {deepest}"))
}

fn within_grows(_: &Truth) -> Verdict {
    let mut sequence = Sequence(16);
    for turn in 0..2_000 {
        let number = sequence.below(NUMBERS as u64) as usize;
        let Some(position) = legal_of(MEN[turn % 4], number) else { continue };
        let (mut won, mut lost) = (false, false);
        for plies in 0..=3 {
            let now = (won_within(&position, plies), lost_within(&position, plies));
            let right = now.0 >= won && now.1 >= lost && !(now.0 && now.1);
            expect(right, || format!("{position:?} within {plies}: {now:?}"))?;
            (won, lost) = now;
        }
    }
    Ok(())
}

/// The plain reading plays on the record's own colours.
fn search_plain(_: &Truth) -> Verdict {
    let mut decided = 0;
    for man in MEN {
        for keyed in every_keyed(man).step_by(53) {
            let Ok(found) = search(&keyed, 2) else { continue };
            let due = plain::opinion(&keyed, 2);
            decided += (due != Opinion::NotWithin) as u32;
            expect(found == due, || format!("{keyed:?}: {found:?}, not {due:?}"))?;
        }
    }
    expect(decided > 0, || "no depth was found".to_string())
}

fn search_refusals(_: &Truth) -> Verdict {
    for keyed in samples::lines().into_iter().map(samples::keyed_of) {
        let lowest = legal_position(&keyed).err();
        for plies in [0, 1, 7, 8, 128, 255] {
            let found = search(&keyed, plies).err();
            let due = lowest.or((plies > 6).then_some(Refused(16)));
            expect(found == due, || format!("{keyed:?} within {plies}: {found:?}"))?;
        }
    }
    let mate = "Q b b3 b2 a1";
    let keyed = read_position(mate.as_bytes()).map_err(|r| format!("{r:?}"))?;
    let found = search(&keyed, 6);
    expect(found == Ok(Opinion::Loss(0)), || format!("{mate}: {found:?}"))
}
