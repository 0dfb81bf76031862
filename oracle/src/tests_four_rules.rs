//! Self tests of two men's rules, against the slow reading of the Laws.

use crate::board::holds;
use crate::ending::Ending;
use crate::four_number::{position_of, NUMBERS_OF_TWO};
use crate::four_retract::{retractions, uncaptures};
use crate::laws::{in_check, legal, legal_placement, moves, play, ROOM};
use crate::placement::{Limit, Placement};
use crate::plain;
use crate::position::{Refused, MEN};
use crate::rules::{self, Move};
use crate::samples::Sequence;
use crate::selftest::{every_keyed, expect, Verdict};
use crate::selftest_four::{drawn, raw_keyed, FourTest, FourTruth};
use crate::sight::{attack, sees};

pub const TESTS: &[FourTest] = &[
    ("a square is seen exactly when it is attacked", seen_is_attacked),
    ("one man's moves are those of the rules for one man", one_man),
    ("two men's moves, check and what a move leaves, by the slow reading", slow_reading),
    ("refusals 1 to 6 of any bytes, with one man allowed and with two", refusals),
    ("retractions and captures gone back are exactly the moves, on drawn positions", gone_back),
];

/// Over every position of two queens.
pub const MOST_MOVES: &[FourTest] =
    &[("62 places are enough for two queens, and the unused hold zero", room)];

fn seen_is_attacked(_: &FourTruth) -> Verdict {
    let mut sequence = Sequence(10);
    for _ in 0..2_000 {
        let from = sequence.square();
        let occupied = sequence.below(1 << 32) & sequence.below(1 << 32)
            | (sequence.below(1 << 32) & sequence.below(1 << 32)) << 32;
        for man in MEN {
            let set = attack(man, from, occupied);
            let right = (0..64).all(|to| sees(man, from, to, occupied) == holds(set, to));
            expect(right, || format!("{} from {from} over {occupied:x}", man.name()))?;
        }
    }
    Ok(())
}

fn one_man(_: &FourTruth) -> Verdict {
    for man in MEN {
        for keyed in every_keyed(man) {
            let one = rules::legal_position(&keyed);
            let any = legal_placement(&keyed, Limit::TwoMen);
            let (Ok(position), Ok(placement)) = (one, any) else {
                expect(one.err() == any.err(), || format!("{keyed:?}"))?;
                continue;
            };
            let same = placement.alone() == Some(position)
                && moves(&placement).as_slice() == rules::moves(&position).as_slice();
            expect(same, || format!("{keyed:?}"))?;
        }
    }
    Ok(())
}

/// What a move leaves, by the plain reading; a man left alone counts as the first.
fn plainly_after(placement: &Placement, chosen: Move) -> Option<Placement> {
    let mut after = plain::after(&placement.keyed(), (chosen.from, chosen.to, chosen.takes));
    if after.men[0].is_none() {
        after.men.reverse();
    }
    after.placement(Limit::TwoMen).ok()
}

fn slow_reading(_: &FourTruth) -> Verdict {
    let mut sequence = Sequence(11);
    for ending in Ending::all() {
        for _ in 0..10_000 {
            let placement = drawn(&mut sequence, ending);
            let keyed = placement.keyed();
            let waiting_in_check = plain::lowest_refusal_of(&keyed, Limit::TwoMen) == Some(6);
            expect(legal(&placement) != waiting_in_check, || format!("{placement:?}"))?;
            if waiting_in_check {
                continue;
            }
            let list = moves(&placement);
            let found: Vec<_> = list.as_slice().iter().map(|m| (m.from, m.to, m.takes)).collect();
            expect(found == plain::moves(&keyed), || format!("moves of {placement:?}"))?;
            let checked = in_check(&placement) == plain::side_in_check(&keyed);
            expect(checked, || format!("check in {placement:?}"))?;
            let left = list.as_slice().iter().all(|&chosen| {
                let after = play(&placement, chosen);
                after.men == [None; 2] || plainly_after(&placement, chosen) == Some(after)
            });
            expect(left, || format!("left by {placement:?}"))?;
        }
    }
    Ok(())
}

fn refusals(_: &FourTruth) -> Verdict {
    let mut sequence = Sequence(12);
    for _ in 0..300_000 {
        let keyed = raw_keyed(&mut sequence);
        for limit in [Limit::OneMan, Limit::TwoMen] {
            let found = legal_placement(&keyed, limit).err();
            let due = plain::lowest_refusal_of(&keyed, limit).map(Refused);
            expect(found == due, || format!("{keyed:?}: {found:?}, not {due:?}"))?;
        }
        // Three men as they have always been.
        let old = rules::legal_position(&keyed).err();
        let due = legal_placement(&keyed, Limit::OneMan).err();
        expect(old == due, || format!("{keyed:?}: {old:?}, not {due:?}"))?;
    }
    Ok(())
}

/// A list that ends before its last place has lost no move.
fn room(truth: &FourTruth) -> Verdict {
    let Some(large) = truth.of("KQQK") else { return Err("no KQQK".to_string()) };
    let mut most = (0, None);
    for number in (0..NUMBERS_OF_TWO).filter(|&number| large.bytes[number] != 0) {
        let Some(placement) = position_of(large.ending, number) else { continue };
        let list = moves(&placement);
        let count = list.as_slice().len();
        let unused = list.places()[count..].iter().all(|&place| place == Move::default());
        expect(unused && count < ROOM, || format!("{count} moves at {number}"))?;
        if count > most.0 {
            most = (count, Some(placement));
        }
    }
    let (count, Some(placement)) = most else { return Err("no moves".to_string()) };
    let due = plain::moves(&placement.keyed()).len();
    expect(count == due, || format!("{placement:?}: {count} moves, not {due}"))
}

/// All placements that a placement came from: without a capture, or by the capture of a man.
fn all_earlier(placement: &Placement) -> Vec<Placement> {
    let mut found = Vec::new();
    retractions(placement, |earlier| found.push(*earlier));
    if placement.men[1].is_none() {
        for kind in MEN {
            uncaptures(placement, kind, |earlier| found.push(*earlier));
        }
    }
    found.retain(legal);
    found
}

/// The same men in the other slots.
fn slots_exchanged(placement: &Placement) -> Placement {
    let [first, second] = placement.men;
    Placement { men: [second, first], ..*placement }
}

fn gone_back(_: &FourTruth) -> Verdict {
    let mut sequence = Sequence(13);
    for ending in Ending::all() {
        for _ in 0..400 {
            let placement = drawn(&mut sequence, ending);
            if !legal(&placement) {
                continue;
            }
            for &chosen in moves(&placement).as_slice() {
                let after = play(&placement, chosen);
                let earlier = all_earlier(&after);
                let held =
                    earlier.contains(&placement) || earlier.contains(&slots_exchanged(&placement));
                expect(held, || format!("{placement:?} is not before {after:?}"))?;
                let reached = earlier.iter().all(|earlier| {
                    let list = moves(earlier);
                    list.as_slice().iter().any(|&chosen| play(earlier, chosen) == after)
                });
                expect(reached, || format!("{after:?} is not after all of {earlier:?}"))?;
            }
        }
    }
    Ok(())
}
