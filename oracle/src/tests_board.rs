//! Self tests of the maps, the refusals and the moves.

use crate::number::number;
use crate::plain;
use crate::position::{Keyed, KeyedMan, Position, Refused, Side, MEN};
use crate::rules::{in_check, legal_position, moves, play, Move, MOST_MOVES};
use crate::samples::{self, Line, Sequence};
use crate::selftest::{every_keyed, every_keyed_of, expect, Test, Truth, Verdict};
use crate::symmetry::{mapped, position_mapped};

pub const TESTS: &[Test] = &[
    ("the eight maps are eight, and two in turn make one of them", maps_compose),
    ("the lowest refusal counts, on 400,000 raw records of up to two men", lowest_refusal),
    (
        "one man is legal or refused as a plain reading says, on every board of both colours",
        boards_plain,
    ),
    (
        "legal moves, what they take, and check are a plain reading's on every legal position",
        moves_plain,
    ),
    ("a move takes where the other side's man stands, and leaves one man fewer only then", marks),
    ("there are at most 35 moves, 35 occur, and unused places hold a plain a1 to a1", most_moves),
    ("a mapped position has the mapped moves, on 20,000 positions", moves_mapped),
    ("a move leads to a position that can be placed and is legal", moves_lead),
    ("the sample lines are 450 or more, distinct, with every refusal and colour", sample_lines),
];

fn maps_compose(_: &Truth) -> Verdict {
    let image = |map: u8| -> Vec<u8> { (0..64).map(|square| mapped(map, square)).collect() };
    let images: Vec<Vec<u8>> = (0..8).map(image).collect();
    for (first, one) in images.iter().enumerate() {
        let alike = images.iter().filter(|&other| other == one).count();
        expect(alike == 1, || format!("map {first} occurs {alike} times"))?;
        for (second, other) in images.iter().enumerate() {
            let both: Vec<u8> = one.iter().map(|&square| other[square as usize & 63]).collect();
            expect(images.contains(&both), || format!("maps {first} then {second}"))?;
        }
    }
    Ok(())
}

/// Bytes that are more often right than not, and most often one man in the first place.
fn raw_keyed(sequence: &mut Sequence) -> Keyed {
    let mut byte = |right: u64| match sequence.below(12) {
        0 => sequence.below(256) as u8,
        _ => sequence.below(right) as u8,
    };
    let mut man = || Some(KeyedMan { kind: byte(4), colour: byte(2), square: byte(64) });
    let pair = [man(), man()];
    let men = match byte(16) {
        0 => [None, None],
        1 => [None, pair[1]],
        2 | 3 => pair,
        _ => [pair[0], None],
    };
    Keyed { side: byte(2), white_king: byte(64), black_king: byte(64), men }
}

fn lowest_refusal(_: &Truth) -> Verdict {
    let mut sequence = Sequence(1);
    for _ in 0..400_000 {
        let keyed = raw_keyed(&mut sequence);
        let lowest = plain::lowest_refusal(&keyed).map(Refused);
        let listed = legal_position(&keyed).err();
        expect(listed == lowest, || format!("{keyed:?}: {listed:?}, not {lowest:?}"))?;
        // Numbering does not ask for 6.
        let asked = lowest.filter(|&refused| refused != Refused(6));
        let numbered = number(&keyed).err();
        expect(numbered == asked, || format!("{keyed:?}: number {numbered:?}, not {asked:?}"))?;
    }
    Ok(())
}

fn boards_plain(_: &Truth) -> Verdict {
    for man in MEN {
        for keyed in every_keyed(man) {
            let found = legal_position(&keyed).err();
            let lowest = plain::lowest_refusal(&keyed).map(Refused);
            expect(found == lowest, || format!("{keyed:?}: {found:?}, not {lowest:?}"))?;
        }
    }
    Ok(())
}

/// Every legal position of every man of White's, all 64 squares.
fn on_every_legal(mut test: impl FnMut(&Position) -> Verdict) -> Verdict {
    for man in MEN {
        for keyed in every_keyed_of(man, Side::White) {
            if let Ok(position) = legal_position(&keyed) {
                test(&position)?;
            }
        }
    }
    Ok(())
}

/// A list that can be compared and sorted.
fn listed(position: &Position) -> Vec<(u8, u8, bool)> {
    moves(position).as_slice().iter().map(|m| (m.from, m.to, m.takes)).collect()
}

/// With the man of either side: the plain reading exchanges nothing.
fn moves_plain(_: &Truth) -> Verdict {
    for man in MEN {
        for keyed in every_keyed(man) {
            let Ok(position) = legal_position(&keyed) else { continue };
            let right = listed(&position) == plain::moves(&keyed);
            expect(right, || format!("moves of {keyed:?}"))?;
            let check = plain::side_in_check(&keyed);
            expect(in_check(&position) == check, || format!("check in {keyed:?}"))?;
        }
    }
    Ok(())
}

/// Only Black's king can take, and only the man: never a king.
fn marks(_: &Truth) -> Verdict {
    let mut taking = 0;
    on_every_legal(|position| {
        for &chosen in moves(position).as_slice() {
            let taken = position.side == Side::Black && chosen.to == position.man_square;
            let fewer = play(position, chosen).is_none();
            taking += taken as u32;
            expect(chosen.takes == taken && fewer == taken, || {
                format!("{chosen:?}, {position:?}")
            })?;
            let kings = [position.white_king, position.black_king];
            expect(!kings.contains(&chosen.to), || format!("{chosen:?} takes a king"))?;
        }
        Ok(())
    })?;
    expect(taking > 0, || "no move takes".to_string())
}

fn most_moves(_: &Truth) -> Verdict {
    let mut most = [0; 4];
    let unused = Move { from: 0, to: 0, takes: false };
    on_every_legal(|position| {
        let list = moves(position);
        let count = list.as_slice().len();
        let place = &mut most[position.man as usize];
        *place = count.max(*place);
        let rest = list.places().iter().skip(count).all(|&place| place == unused);
        expect(rest, || format!("unused places of {position:?}"))
    })?;
    let greatest = most.into_iter().max();
    expect(greatest == Some(MOST_MOVES), || format!("most moves {most:?}"))
}

fn moves_mapped(_: &Truth) -> Verdict {
    let mut sequence = Sequence(35);
    for _ in 0..20_000 {
        let Ok(position) = legal_position(&raw_keyed(&mut sequence)) else { continue };
        for map in 0..8 {
            let there = position_mapped(map, &position);
            let mut carried: Vec<(u8, u8, bool)> = listed(&position)
                .into_iter()
                .map(|(from, to, takes)| (mapped(map, from), mapped(map, to), takes))
                .collect();
            carried.sort();
            expect(listed(&there) == carried, || format!("map {map} of {position:?}"))?;
        }
    }
    Ok(())
}

fn moves_lead(_: &Truth) -> Verdict {
    on_every_legal(|position| {
        for &chosen in moves(position).as_slice() {
            let Some(next) = play(position, chosen) else { continue };
            let kept = legal_position(&next.keyed()) == Ok(next);
            expect(kept, || format!("{chosen:?} in {position:?}"))?;
        }
        Ok(())
    })
}

fn sample_lines(_: &Truth) -> Verdict {
    let (white, lines) = (samples::white_lines(), samples::lines());
    let mut distinct = lines.clone();
    distinct.sort();
    distinct.dedup();
    let enough = white.len() >= 450 && distinct.len() == lines.len() && lines.starts_with(&white);
    expect(enough, || format!("{} lines, {} distinct", lines.len(), distinct.len()))?;
    for part in [&white[..], &lines[white.len()..]] {
        for refusal in 1..=6 {
            let refused =
                |&&line: &&Line| legal_position(&samples::keyed_of(line)) == Err(Refused(refusal));
            let count = part.iter().filter(refused).count();
            expect(count >= 10, || format!("{count} lines refused {refusal}"))?;
        }
    }
    Ok(())
}
