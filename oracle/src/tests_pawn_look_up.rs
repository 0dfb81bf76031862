//! Self tests of the pawn's slips.

use crate::fifty::look_up_pawn_counted;
use crate::number::{self, NUMBERS};
use crate::pawn_counts::PawnTruth;
use crate::pawn_number::{number_of, PAWN_NUMBERS};
use crate::pawn_plain;
use crate::pawn_position::PawnPosition;
use crate::pawn_rules::{legal, legal_pawn, moves, pawn_move_name, play, After, PawnMove};
use crate::pawn_samples::{drawn, keyed_of, positions};
use crate::pawn_table::{look_up, PawnAnswer};
use crate::position::{Keyed, Man, Refused, Side, MEN};
use crate::rule::{value, Value, DRAW};
use crate::samples::Sequence;
use crate::search::Opinion;
use crate::selftest::{expect, Verdict};
use crate::selftest_pawn::{every_keyed, PawnTest};
use crate::table::wanted;

pub const TESTS: &[PawnTest] = &[
    ("02's case, and well-known positions", known),
    ("slips by 02's words, turned and exchanged, on every legal position", slips),
    ("depths up to 3 by the slow search", slow_search),
    ("look-up: 7 of every length, 11 by what all tables require", look_up_refusals),
    ("with a count the slip stays and bears no mark; 19 comes after all others", counted),
];

pub fn slip(truth: &PawnTruth, keyed: &Keyed) -> Result<PawnAnswer, Refused> {
    look_up(&truth.own, truth.lent(), keyed)
}

fn known(truth: &PawnTruth) -> Verdict {
    let queen = Some("a7a8q");
    for (text, due, best) in [
        // "A win in 1 by `a7a8q`, though the rook mates too."
        ("P w c2 a7 a1", Some(Value::Win(1)), queen),
        ("p b a8 a2 c7", Some(Value::Win(1)), Some("a2a1q")),
        ("P w f2 h7 h1", Some(Value::Win(1)), Some("h7h8q")),
        // The king in front with the opposition, or without.
        ("P w e6 e5 e8", None, None),
        ("P b e6 e5 e8", None, None),
        ("P w e4 e3 e6", Some(Value::Draw), None),
        // Stalemate in the corner, and with the king before the pawn.
        ("P b a6 a7 a8", Some(Value::Draw), Some("")),
        ("P b f6 f7 f8", Some(Value::Draw), Some("")),
        ("P b g6 g7 g8", Some(Value::Draw), Some("")),
        ("P b c7 a7 a8", Some(Value::Draw), Some("a8xa7")),
        // Every move draws: c4 is the first with the pawn on the d-file, and carried back it is f4.
        ("P b a1 e4 e5", Some(Value::Draw), Some("e5f4")),
    ] {
        let Some(keyed) = keyed_of(text) else { return Err(text.to_string()) };
        let found = slip(truth, &keyed).map_err(|refused| format!("{text}: {refused:?}"))?;
        let name = found.best.map(pawn_move_name).unwrap_or_default();
        let right = match due {
            Some(due) => found.value == due && best.is_none_or(|best| best == name),
            None => found.value != Value::Draw,
        };
        expect(right, || format!("{text}: {found:?} {name}"))?;
    }
    Ok(())
}

/// The true byte of what a move left, read without the tables' own reader.
fn byte_after(truth: &PawnTruth, after: &After) -> u8 {
    match after {
        After::Pawn(next) => truth.own[number_of(next)],
        After::Promoted(placement) => placement
            .alone()
            .map_or(0, |next| truth.lent[next.man as usize][number::number_of(&next)]),
        After::BareKings => DRAW,
    }
}

/// The move by 02's words: every normal square is tried for the one that a square of the board as
/// keyed is turned to.
fn best_by_the_words(truth: &PawnTruth, position: &PawnPosition, held: Value) -> Option<PawnMove> {
    let reversed = position.pawn % 8 > 3;
    let black = position.colour == Side::Black;
    let turned = |square: u8| {
        let (rank, file) = (square / 8, square % 8);
        let rank = if black { 7 - rank } else { rank };
        8 * rank + if reversed { 7 - file } else { file }
    };
    let [white, other] = position.kings.map(turned);
    let normal = PawnPosition {
        side: if black { position.side.other() } else { position.side },
        kings: if black { [other, white] } else { [white, other] },
        colour: Side::White,
        pawn: turned(position.pawn),
    };
    let back = |square: u8| (0..64).find(|&from| turned(from) == square).unwrap_or(64);
    let suits = |&m: &PawnMove| Some(value(byte_after(truth, &play(&normal, m)))) == wanted(held);
    let found = moves(&normal).into_iter().find(suits)?;
    Some(PawnMove { from: back(found.from), to: back(found.to), ..found })
}

fn slips(truth: &PawnTruth) -> Verdict {
    for keyed in every_keyed() {
        let Ok(position) = legal_pawn(&keyed) else { continue };
        let held = value(truth.own[number_of(&position)]);
        let due = PawnAnswer { value: held, best: best_by_the_words(truth, &position, held) };
        let found = slip(truth, &keyed);
        expect(found == Ok(due), || format!("{keyed:?}: {found:?}, not {due:?}"))?;
        // The move is legal on the board as keyed and leads to what is sought there.
        let list = moves(&position);
        let suits = due.best.map_or(list.is_empty(), |best| {
            let after = value(byte_after(truth, &play(&position, best)));
            list.contains(&best) && Some(after) == wanted(held)
        });
        expect(suits, || format!("{keyed:?}: {:?} does not suit", due.best))?;
    }
    Ok(())
}

fn slow_search(truth: &PawnTruth) -> Verdict {
    let mut sequence = Sequence(73);
    let drawn = std::iter::repeat_with(|| drawn(&mut sequence)).filter(legal).take(3_000);
    let samples = positions().into_iter().filter_map(|keyed| legal_pawn(&keyed).ok());
    let decided = every_keyed().filter_map(|keyed| legal_pawn(&keyed).ok()).filter(|position| {
        matches!(value(truth.own[number_of(position)]), Value::Win(n) | Value::Loss(n) if n <= 3)
    });
    let decided: Vec<PawnPosition> = decided.step_by(7).collect();
    for position in drawn.chain(samples).chain(decided) {
        let due = match value(truth.own[number_of(&position)]) {
            Value::Win(depth) if depth <= 3 => Opinion::Win(depth),
            Value::Loss(depth) if depth <= 3 => Opinion::Loss(depth),
            _ => Opinion::NotWithin,
        };
        let board = pawn_plain::letters(&position.keyed());
        let said = pawn_plain::opinion(&board, position.side, 3);
        expect(said == due, || format!("{position:?}: {said:?}, not {due:?}"))?;
    }
    Ok(())
}

fn look_up_refusals(truth: &PawnTruth) -> Verdict {
    let Some(keyed) = keyed_of("P w c2 a7 a1") else { return Err("no position".to_string()) };
    for length in [0, PAWN_NUMBERS - 1, NUMBERS] {
        let found = look_up(&truth.own[..length], truth.lent(), &keyed);
        expect(found == Err(Refused(7)), || format!("{length}: {found:?}"))?;
    }
    for man in MEN {
        let mut lent = truth.lent();
        lent[man as usize] = &lent[man as usize][..NUMBERS - 1];
        let found = look_up(&truth.own, lent, &keyed);
        expect(found == Err(Refused(7)), || format!("{}: {found:?}", man.name()))?;
    }
    // Without the queen's mate the rook's is the first; without both the byte is wrong.
    let draws = vec![DRAW; NUMBERS];
    let mut lent = truth.lent();
    lent[Man::Queen as usize] = &draws;
    let rook = look_up(&truth.own, lent, &keyed);
    let promotes = rook.map(|answer| answer.best.and_then(|best| best.promotes));
    expect(promotes == Ok(Some(Man::Rook)), || format!("{rook:?}"))?;
    lent[Man::Rook as usize] = &draws;
    let neither = look_up(&truth.own, lent, &keyed);
    expect(neither == Err(Refused(11)), || format!("{neither:?}"))?;
    // Refusals 1, 2, 3, 18, 4, 5 and 6 come before 7.
    let first = positions().into_iter().all(|keyed| {
        let due = legal_pawn(&keyed).map_or_else(Err, |_| Err(Refused(7)));
        look_up(&[], [&[]; 4], &keyed) == due
    });
    expect(first, || "a length is asked first".to_string())
}

fn counted(truth: &PawnTruth) -> Verdict {
    for keyed in positions() {
        let plain = slip(truth, &keyed);
        for count in [0, 44, 99] {
            let found = look_up_pawn_counted(&truth.own, truth.lent(), &keyed, count);
            let due = plain.map(|answer| (answer, false));
            expect(found == due, || format!("{keyed:?} with {count}: {found:?}"))?;
        }
        let found = look_up_pawn_counted(&truth.own, truth.lent(), &keyed, 100);
        let due = plain.and(Err(Refused(19)));
        expect(found == due, || format!("{keyed:?} with 100: {found:?}"))?;
    }
    Ok(())
}
