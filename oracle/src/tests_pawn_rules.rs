//! Self tests of the pawn's rules, refusals and numbers.

use std::collections::BTreeMap;

use crate::pawn_counts::PawnTruth;
use crate::pawn_number::{back, normalised, number, number_of, position_of, PAWN_NUMBERS};
use crate::pawn_plain;
use crate::pawn_position::{PawnPosition, PAWN};
use crate::pawn_rules::{in_check, legal, legal_pawn, moves, play, After, PawnMove};
use crate::pawn_samples::{chosen_count, keyed_of};
use crate::placement::Limit;
use crate::position::{Keyed, KeyedMan, Man, Refused, Side};
use crate::samples::Sequence;
use crate::selftest::{expect, Verdict};
use crate::selftest_pawn::{every_keyed, PawnTest};

pub const TESTS: &[PawnTest] = &[
    ("refusals 1, 2, 3, 18, 4, 5, 6 in that order, on all squares and on any bytes", refusals),
    ("a pawn with a second man, and a pawn where men only are taken: 1", with_a_second),
    ("moves, check and what moves leave by the slow reading, on every legal position", slow_moves),
    ("every sample text keys a position", samples),
    ("the legal positions are document 000's 81,664 and 84,012, by side to move", legal_counts),
    ("numbers by 02's words, and back; 8 and 9", numbers),
    ("same numbers exactly by the reversal and the exchange", classes),
];

/// The lowest refusal of a lone pawn, each asked on its own, in the order of 02.
fn lowest(keyed: &Keyed) -> Option<u8> {
    let [Some(KeyedMan { kind, colour, square }), None] = keyed.men else { return Some(1) };
    let (white, black) = (keyed.white_king, keyed.black_king);
    let near = |x: u8, y: u8| x.abs_diff(y) <= 1;
    let on_board = white < 64 && black < 64 && square < 64;
    let touch = near(white / 8, black / 8) && near(white % 8, black % 8);
    let waiting = Side::from_code(keyed.side).unwrap_or(Side::White).other();
    let seen = on_board && pawn_plain::in_check(&pawn_plain::letters(keyed), waiting);
    let applies = [
        (1, kind != PAWN),
        (2, keyed.side > 1 || colour > 1),
        (3, !on_board),
        (18, square / 8 == 0 || square / 8 == 7),
        (4, white == black || white == square || black == square),
        (5, touch),
        (6, seen),
    ];
    applies.into_iter().find(|&(_, yes)| yes).map(|(number, _)| number)
}

/// Any bytes with one man, more often right than not.
fn raw(sequence: &mut Sequence) -> Keyed {
    let mut byte = |right: u64| match sequence.below(12) {
        0 => [64, 255, 4, 2][sequence.below(4) as usize % 4],
        _ => sequence.below(right) as u8,
    };
    let kind = if byte(8) == 0 { byte(6) } else { PAWN };
    let man = [kind, byte(2), byte(64)];
    Keyed::of_one(man, byte(2), [byte(64), byte(64)])
}

fn refusals(_: &PawnTruth) -> Verdict {
    let mut sequence = Sequence(71);
    let any = (0..200_000).map(|_| raw(&mut sequence));
    for keyed in every_keyed().chain(any) {
        let due = lowest(&keyed).map_or(Ok(()), |number| Err(Refused(number)));
        let found = legal_pawn(&keyed).map(|_| ());
        expect(found == due, || format!("{keyed:?}: {found:?}, not {due:?}"))?;
        // "Side not to move is in check (.. numbering does not ask)."
        let due = if due == Err(Refused(6)) { Ok(()) } else { due };
        let found = number(&keyed).map(|_| ());
        expect(found == due, || format!("{keyed:?}: numbered {found:?}, not {due:?}"))?;
    }
    Ok(())
}

fn with_a_second(_: &PawnTruth) -> Verdict {
    let Some(keyed) = keyed_of("P w c2 a7 a1") else { return Err("no position".to_string()) };
    let pawn = keyed.men[0];
    let queen = Some(KeyedMan { kind: 0, colour: 0, square: 40 });
    for men in [[pawn, queen], [queen, pawn], [pawn, pawn], [None, pawn], [None, None]] {
        let two = Keyed { men, ..keyed };
        let found = two.any_placed();
        expect(found == Err(Refused(1)), || format!("{men:?}: {found:?}"))?;
    }
    for limit in [Limit::OneMan, Limit::TwoMen] {
        let found = keyed.placement(limit);
        expect(found == Err(Refused(1)), || format!("{limit:?}: {found:?}"))?;
    }
    expect(keyed.any_placed().is_ok(), || "a lone pawn is refused".to_string())
}

/// What stands on the board after a move, by the fast reading.
fn left(position: &PawnPosition, chosen: PawnMove) -> pawn_plain::Letters {
    match play(position, chosen) {
        After::Pawn(next) => pawn_plain::letters(&next.keyed()),
        After::Promoted(placement) => pawn_plain::letters(&placement.keyed()),
        After::BareKings => {
            // The king stands on the pawn's square.
            let mut kings = position.kings;
            kings[position.side as usize] = chosen.to;
            let bare = Keyed::of_one([PAWN, 0, 0], 0, kings);
            pawn_plain::letters(&Keyed { men: [None, None], ..bare })
        }
    }
}

fn slow_moves(_: &PawnTruth) -> Verdict {
    for position in every_keyed().filter_map(|keyed| legal_pawn(&keyed).ok()) {
        let board = pawn_plain::letters(&position.keyed());
        let due = pawn_plain::moves(&board, position.side);
        let list = moves(&position);
        let found: Vec<pawn_plain::LettersMove> = list
            .iter()
            .map(|m| (m.from as usize, m.to as usize, m.takes, m.promotes.map(|k| k as usize)))
            .collect();
        expect(found == due, || format!("{position:?}: {found:?}, not {due:?}"))?;
        expect(found.len() <= 12, || format!("{position:?}: {} moves", found.len()))?;
        let check = in_check(&position) == pawn_plain::in_check(&board, position.side);
        expect(check, || format!("{position:?}: check"))?;
        let same = list.iter().zip(&due).all(|(&chosen, &plain)| {
            left(&position, chosen) == pawn_plain::moved(&board, position.side, plain)
        });
        expect(same, || format!("{position:?}: what a move leaves"))?;
    }
    Ok(())
}

fn samples(_: &PawnTruth) -> Verdict {
    let (texts, keyed) = chosen_count();
    expect(texts == keyed, || format!("{keyed} of {texts}"))
}

fn legal_counts(truth: &PawnTruth) -> Verdict {
    let used = (0..PAWN_NUMBERS).filter_map(position_of);
    let mut counts = [0; 2];
    for position in used.filter(legal) {
        counts[position.side as usize] += 1;
    }
    expect(counts == [81_664, 84_012], || format!("{counts:?}"))?;
    let open = truth.own.iter().filter(|&&byte| byte != 0).count();
    expect(open == 81_664 + 84_012, || format!("{open} bytes that are not 0"))
}

/// The number as 02 words it, from the keyed bytes.
fn by_the_words(keyed: &Keyed) -> usize {
    let [Some(man), _] = keyed.men else { return PAWN_NUMBERS };
    let [mut white, mut black, mut pawn] =
        [keyed.white_king, keyed.black_king, man.square].map(|s| (s as usize / 8, s as usize % 8));
    let mut side = keyed.side as usize;
    if man.colour == 1 {
        (white, black, side) = (black, white, 1 - side);
        for (rank, _) in [&mut white, &mut black, &mut pawn] {
            *rank = 7 - *rank;
        }
    }
    if pawn.1 > 3 {
        for (_, file) in [&mut white, &mut black, &mut pawn] {
            *file = 7 - *file;
        }
    }
    let square = |(rank, file): (usize, usize)| 8 * rank + file;
    let slot = (pawn.0 + 1 - 2) * 4 + pawn.1;
    (side * 24 + slot) * 4_096 + square(white) * 64 + square(black)
}

fn numbers(_: &PawnTruth) -> Verdict {
    for keyed in every_keyed() {
        let Ok(position) = keyed.pawn_placed() else { continue };
        let (found, due) = (number_of(&position), by_the_words(&keyed));
        expect(found == due, || format!("{keyed:?}: {found}, not {due}"))?;
        let again = back(PAWN, found as u64);
        expect(again == Ok(normalised(&position)), || format!("{found} back: {again:?}"))?;
    }
    for number in 0..PAWN_NUMBERS {
        let found = back(PAWN, number as u64);
        let right = found.map_or_else(|r| r == Refused(9), |place| number_of(&place) == number);
        expect(right, || format!("{number} back: {found:?}"))?;
    }
    let ends = [back(PAWN, PAWN_NUMBERS as u64), back(PAWN, u64::MAX), back(3, 0), back(5, 0)];
    expect(ends == [8, 8, 1, 1].map(|n| Err(Refused(n))), || format!("{ends:?}"))
}

/// A record with files reversed, or with colours exchanged and ranks turned.
fn changed(keyed: &Keyed, files: bool, colours: bool) -> Keyed {
    let flip = if files { 7 } else { 0 } | if colours { 56 } else { 0 };
    let keyed = if colours { keyed.exchanged() } else { *keyed };
    let men = keyed.men.map(|man| man.map(|man| KeyedMan { square: man.square ^ flip, ..man }));
    let (white_king, black_king) = (keyed.white_king ^ flip, keyed.black_king ^ flip);
    Keyed { side: keyed.side, white_king, black_king, men }
}

fn classes(_: &PawnTruth) -> Verdict {
    let mut found: BTreeMap<usize, usize> = BTreeMap::new();
    for keyed in every_keyed() {
        let Ok(here) = number(&keyed) else { continue };
        *found.entry(here).or_default() += 1;
        for (files, colours) in [(true, false), (false, true), (true, true)] {
            let there = number(&changed(&keyed, files, colours));
            expect(there == Ok(here), || format!("{keyed:?}: {here} and {there:?}"))?;
        }
    }
    // Four records to a number, all four changes of one another.
    let right = found.len() == 2 * 84_012 && found.values().all(|&count| count == 4);
    expect(right, || format!("{} numbers", found.len()))?;
    let one = keyed_of("P w c2 a7 a1").map(|keyed| number(&keyed));
    let due = (20 * 4_096) + 10 * 64;
    expect(one == Some(Ok(due)), || format!("{one:?}, not {due}"))?;
    let queen =
        moves(&PawnPosition { side: Side::White, kings: [10, 0], colour: Side::White, pawn: 48 });
    let promotions: Vec<Man> = queen.iter().filter_map(|chosen| chosen.promotes).collect();
    expect(promotions == crate::position::MEN, || format!("{promotions:?}"))
}
