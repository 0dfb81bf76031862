//! Self tests of filling, checking and looking up.

use crate::counts::byte_counts;
use crate::fill_back;
use crate::fill_every;
use crate::number::{number_of, position_of, NUMBERS};
use crate::plain;
use crate::position::{Keyed, Man, Position, Refused, Side, MEN};
use crate::retract::retractions;
use crate::rule::{value, Value, DRAW, GREATEST_DEPTH, MATED};
use crate::rules::{in_check, legal, legal_position, moves, play, Move};
use crate::samples::Sequence;
use crate::selftest::{every_keyed, expect, Test, Truth, Verdict};
use crate::symmetry::{mapped, position_mapped};
use crate::table::{check, look_up, required, sized, Checked, Table};
use crate::tests_number::is_numbered;

pub const TESTS: &[Test] = &[
    ("both fills give one table, whatever the buffer held", fills_alike),
    ("filling refuses 1, then 7, and leaves the buffer alone", fill_refusals),
    ("greatest depths: document 000, table 8b for KQK and KRK, 8a for KBK and KNK", depths),
    ("KRK with Black to move: the published counts of all 28,056 positions", rook_counts),
    ("the byte required is a plain reading's, on tables of random bytes", plain_rule),
    ("checking accepts the four tables, and no table of another man", check_accepts),
    ("checking refuses 1, then 7", check_refusals),
    ("checking names the lowest wrong number after each of 3,000 damages", check_damage),
    ("a depth above 253: every byte is wrong, and refused 11 at look-up", too_deep),
    (
        "look-up is refused on no legal position, its answer is the byte's, its move the first on \
         the numbered board",
        look_up_all,
    ),
    ("with both colours each value is the one 01's words give of those after it", values_plain),
    ("look-up refuses 1 to 6 before 7", look_up_refusals),
];

fn fills_alike(truth: &Truth) -> Verdict {
    for man in MEN {
        for dirt in [0, 1, 2, 165, 255] {
            for fill in [fill_every::fill, fill_back::fill] {
                let mut bytes = vec![dirt; NUMBERS];
                let filled = fill(man.code(), &mut bytes);
                let same = filled == truth.filled[man as usize] && bytes == truth.table(man);
                expect(same, || format!("{} over bytes {dirt}: {filled:?}", man.name()))?;
            }
        }
    }
    Ok(())
}

fn fill_refusals(_: &Truth) -> Verdict {
    let cases = [(4, NUMBERS, 1), (255, 0, 1), (0, NUMBERS - 1, 7), (3, NUMBERS + 1, 7), (1, 0, 7)];
    for (man, length, refusal) in cases {
        for fill in [fill_every::fill, fill_back::fill] {
            let mut bytes = vec![77; length];
            let refused = fill(man, &mut bytes) == Err(Refused(refusal));
            let alone = bytes.iter().all(|&byte| byte == 77);
            expect(refused && alone, || format!("man {man}, {length} bytes"))?;
        }
    }
    Ok(())
}

/// The greatest depth of one side's half, or none if nothing is decided there.
fn greatest(table: &[u8], side: Side) -> Option<usize> {
    let counts = byte_counts(table, side);
    (0..=GREATEST_DEPTH as usize).rev().find(|depth| counts[MATED as usize + depth] > 0)
}

/// Tables 8a and 8b count White's moves: KQK 10 and 10, KRK 16 and 16 with White and
/// with Black to move, none for KBK and KNK. In plies that is 19 and 20, 31 and 32.
fn depths(truth: &Truth) -> Verdict {
    let published = [Some(10), Some(16), None, None];
    for (man, winner_moves) in MEN.into_iter().zip(published) {
        let found = [Side::White, Side::Black].map(|side| greatest(truth.table(man), side));
        let counted = found.map(|depth| depth.map(|n| n.div_ceil(2)));
        expect(counted == [winner_moves; 2], || format!("{}: {found:?}", man.name()))?;
        let plies = winner_moves.map(|count| 2 * count as u8);
        let filled = &truth.filled[man as usize];
        expect(*filled == Ok(plies), || format!("{}: {filled:?}", man.name()))?;
    }
    Ok(())
}

/// The counts of the widely used set of all KRK positions, Black to move, by the number
/// of White's moves to mate from 0 to 16, and draws (M. Bain and A. van Hoff, 1994).
fn rook_counts(truth: &Truth) -> Verdict {
    let published =
        [27, 78, 246, 81, 198, 471, 592, 683, 1433, 1712, 1985, 2854, 3597, 4194, 4553, 2166, 390];
    let counts = byte_counts(truth.table(Man::Rook), Side::Black);
    for (mate_in, &count) in published.iter().enumerate() {
        let found = counts[MATED as usize + 2 * mate_in];
        expect(found == count, || format!("mate in {mate_in}: {found}, not {count}"))?;
    }
    let draws = counts[DRAW as usize];
    expect(draws == 2796, || format!("{draws} draws"))
}

/// The sentences of 01 on values, followed one by one: the byte for the values after each move.
fn byte_after(values: &[Value], in_check: bool) -> Option<u8> {
    let losses = values.iter().filter_map(|&v| if let Value::Loss(n) = v { Some(n) } else { None });
    let wins = values.iter().filter_map(|&v| if let Value::Win(n) = v { Some(n) } else { None });
    let depth = if values.is_empty() {
        if !in_check {
            return Some(DRAW);
        }
        0
    } else if let Some(least) = losses.min() {
        least as u16 + 1
    } else if wins.clone().count() == values.len() {
        wins.max().unwrap_or(0) as u16 + 1
    } else {
        return Some(DRAW);
    };
    (depth <= 253).then(|| depth as u8 + 2)
}

fn plainly_required(table: &Table, position: &Position) -> Option<u8> {
    let after = |&chosen: &Move| match play(position, chosen) {
        Some(next) => value(table[number_of(&next)]),
        None => Value::Draw,
    };
    let values: Vec<Value> = moves(position).as_slice().iter().map(after).collect();
    byte_after(&values, in_check(position))
}

fn plain_rule(_: &Truth) -> Verdict {
    let mut sequence = Sequence(253);
    // Few wins, all wins, great wins: what the random bytes are drawn from.
    let stocks: [&[u8]; 4] = [&[0, 1, 2, 3, 4, 5, 255, 254], &[3, 5, 255], &[255], &[1, 3, 7, 9]];
    for man in MEN {
        for stock in stocks {
            let mut bytes = vec![0; NUMBERS];
            for byte in &mut bytes {
                *byte = stock[sequence.below(stock.len() as u64) as usize % stock.len()];
            }
            let table = sized(&bytes).map_err(|refused| format!("{refused:?}"))?;
            for number in 0..NUMBERS {
                let position = position_of(man, number).filter(legal);
                let plain = position.map_or(Some(0), |p| plainly_required(table, &p));
                let found = required(table, man, number);
                expect(found == plain, || format!("{number}: {found:?}, not {plain:?}"))?;
            }
        }
    }
    Ok(())
}

fn check_accepts(truth: &Truth) -> Verdict {
    for man in MEN {
        for other in MEN {
            let checked = check(man.code(), truth.table(other));
            let right = (checked == Ok(Checked::Accepted)) == (man == other) && checked.is_ok();
            expect(right, || format!("{} as {}: {checked:?}", other.name(), man.name()))?;
        }
    }
    Ok(())
}

fn check_refusals(_: &Truth) -> Verdict {
    let cases = [(4, NUMBERS, 1), (255, 3, 1), (0, NUMBERS - 1, 7), (3, NUMBERS + 1, 7), (1, 0, 7)];
    for (man, length, refusal) in cases {
        let checked = check(man, &vec![0; length]);
        expect(checked == Err(Refused(refusal)), || format!("{man}, {length}: {checked:?}"))?;
    }
    Ok(())
}

/// The lowest number wrong after one damaged byte: that number or one of the numbers
/// from which it can arise, since the table was right before.
fn lowest_wrong(table: &Table, man: Man, damaged: usize) -> Option<usize> {
    let mut numbers = vec![damaged];
    if let Some(position) = position_of(man, damaged) {
        retractions(&position, |earlier| numbers.push(number_of(earlier)));
    }
    numbers.into_iter().filter(|&number| required(table, man, number) != Some(table[number])).min()
}

fn check_damage(truth: &Truth) -> Verdict {
    let mut sequence = Sequence(3000);
    for man in MEN {
        let mut bytes = truth.table(man).to_vec();
        for _ in 0..750 {
            let damaged = sequence.below(NUMBERS as u64) as usize;
            let right = bytes[damaged];
            // Half of the damages are the near ones: one ply, two plies, a draw.
            let near = [1, 2, 254, 255][sequence.below(4) as usize & 3];
            let far = sequence.below(255) as u8 + 1;
            bytes[damaged] = right.wrapping_add(if sequence.below(2) == 0 { near } else { far });
            let table = sized(&bytes).map_err(|refused| format!("{refused:?}"))?;
            let wrong = lowest_wrong(table, man, damaged).map(Checked::Wrong);
            let checked = check(man.code(), &bytes).ok();
            let named = checked == wrong && wrong.is_some();
            expect(named, || format!("{} {damaged}: {checked:?}, not {wrong:?}", man.name()))?;
            bytes[damaged] = right;
        }
    }
    Ok(())
}

/// Ka1 Ra5 against Ke5: six moves, none takes the rook. With every successor a win in
/// 253 the rule would require a loss in 254.
fn too_deep(truth: &Truth) -> Verdict {
    let position = Position {
        man: Man::Rook,
        side: Side::Black,
        white_king: 0,
        man_square: 32,
        black_king: 36,
    };
    let mut bytes = truth.table(Man::Rook).to_vec();
    for &chosen in moves(&position).as_slice() {
        if let Some(next) = play(&position, chosen) {
            bytes[number_of(&next)] = u8::MAX;
        }
    }
    let number = number_of(&position);
    for byte in 0..=u8::MAX {
        bytes[number] = byte;
        let table = sized(&bytes).map_err(|refused| format!("{refused:?}"))?;
        let none = required(table, Man::Rook, number).is_none();
        let answer = look_up(&bytes, &position.keyed());
        expect(none && answer == Err(Refused(11)), || format!("byte {byte}: {answer:?}"))?;
    }
    Ok(())
}

/// Does a move lead where an answer of this value must lead?
fn leads(table: &[u8], position: &Position, held: Value, chosen: Move) -> bool {
    let byte = play(position, chosen).map_or(DRAW, |next| table[number_of(&next)]);
    match held {
        Value::Win(depth) => byte as u16 == depth as u16 + 1 && byte & 1 == 0,
        Value::Loss(depth) => byte as u16 == depth as u16 + 1 && byte & 1 == 1,
        Value::Draw => byte < MATED,
    }
}

/// P5's rule from 01's words alone: of the maps to the board that is numbered the one without the
/// exchange where two fit, the first move there that leads where it must, and the squares that the
/// map takes to that move's.
fn first_when_numbered(table: &[u8], position: &Position, held: Value) -> Option<Move> {
    let fits = |&map: &u8| is_numbered(&position_mapped(map, position));
    // Maps 0 to 3 do not exchange.
    let map = (0..8).find(fits)?;
    let numbered = position_mapped(map, position);
    let back = |square: u8| (0..64).find(|&from| mapped(map, from) == square);
    let list = moves(&numbered);
    let first = list.as_slice().iter().find(|&&chosen| leads(table, &numbered, held, chosen))?;
    Some(Move { from: back(first.from)?, to: back(first.to)?, takes: first.takes })
}

fn look_up_all(truth: &Truth) -> Verdict {
    for man in MEN {
        let table = truth.table(man);
        for keyed in every_keyed(man) {
            let Ok(position) = legal_position(&keyed) else { continue };
            let Ok(answer) = look_up(table, &keyed) else {
                return Err(format!("{keyed:?} is refused"));
            };
            let byte = table[number_of(&position)];
            let list = moves(&position);
            let first = first_when_numbered(table, &position, answer.value);
            let right = answer.value == value(byte) && answer.best == first;
            let moved = answer.best.is_none() == list.as_slice().is_empty();
            expect(right && moved, || format!("{keyed:?}: {answer:?}, byte {byte}"))?;
        }
    }
    Ok(())
}

/// The value after a move on the record as keyed, by look-up; bare kings are a draw.
fn value_after(table: &[u8], keyed: &Keyed, chosen: plain::PlainMove) -> Option<Value> {
    let next = plain::after(keyed, chosen);
    if next.men == [None, None] {
        return Some(Value::Draw);
    }
    look_up(table, &next).ok().map(|answer| answer.value)
}

/// Moves, check and the record after a move are the plain reading's: nothing is exchanged here.
fn values_plain(truth: &Truth) -> Verdict {
    for man in MEN {
        let table = truth.table(man);
        for keyed in every_keyed(man).step_by(7) {
            let Ok(answer) = look_up(table, &keyed) else { continue };
            let list = plain::moves(&keyed);
            let values: Option<Vec<Value>> =
                list.iter().map(|&chosen| value_after(table, &keyed, chosen)).collect();
            let Some(values) = values else {
                return Err(format!("a move from {keyed:?} leads to a refusal"));
            };
            let due = byte_after(&values, plain::side_in_check(&keyed)).map(value);
            expect(due == Some(answer.value), || format!("{keyed:?}: {answer:?}, not {due:?}"))?;
            let best = answer.best.map(|best| (best.from, best.to, best.takes));
            let listed = best.is_none_or(|best| list.contains(&best));
            expect(listed && best.is_none() == list.is_empty(), || format!("{keyed:?}: {best:?}"))?;
        }
    }
    Ok(())
}

fn look_up_refusals(truth: &Truth) -> Verdict {
    let mut sequence = Sequence(7);
    let table = truth.table(Man::Queen);
    for _ in 0..10_000 {
        let mut byte = |end| sequence.below(end) as u8;
        let man = [byte(6), byte(3), byte(68)];
        let keyed = Keyed::of_one(man, byte(3), [byte(68), byte(68)]);
        let lowest = legal_position(&keyed).err();
        for length in [0, NUMBERS - 1] {
            let answer = look_up(&table[..length], &keyed).err();
            let due = lowest.or(Some(Refused(7)));
            expect(answer == due, || format!("{keyed:?}: {answer:?}, not {due:?}"))?;
        }
    }
    Ok(())
}
