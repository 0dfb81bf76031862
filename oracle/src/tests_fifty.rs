//! Self tests of the fifty-move rule: marks beside claims in every line of play.

use crate::fifty::{count_after, look_up_counted, may_claim, MOST_COUNT};
use crate::number::{number_of, position_of, NUMBERS};
use crate::position::{Man, Position, MEN};
use crate::rule::{Value, MATED};
use crate::rules::{moves, play, Move};
use crate::selftest::{expect, Test, Truth, Verdict};
use crate::table::look_up;

pub const TESTS: &[Test] = &[
    (
        "marks: from every decided number and count the loser may claim in some line exactly \
         where there is no mark",
        marked_exactly,
    ),
    ("a claim: 99 plies and a quiet move written, or 100 plies, and never at mate", claims),
    ("refusal 19: from 100 plies on, after 11", nineteen),
];

/// Counts that a line may come to: no line from 99 has this many plies more.
const COUNTS: usize = 200;

/// For each count whether some line lets the loser claim before he is mated, the winner playing
/// the desk's moves.
type Spoilt = [bool; COUNTS];

/// The lines of one ending, each number judged once.
struct Lines<'a> {
    table: &'a [u8],
    judged: Vec<Option<Spoilt>>,
}

impl Lines<'_> {
    /// What is spoilt after a move, from each count before it. A capture ends the game.
    fn after(&mut self, position: &Position, chosen: Move) -> Spoilt {
        let mut spoilt = [false; COUNTS];
        let Some(next) = play(position, chosen) else { return spoilt };
        let later = self.of(&next);
        for count in 0..COUNTS - 1 {
            spoilt[count] = later[count_after(count as u32, chosen) as usize];
        }
        spoilt
    }

    fn of(&mut self, position: &Position) -> Spoilt {
        let number = number_of(position);
        if let Some(known) = self.judged[number] {
            return known;
        }
        let mut spoilt = [false; COUNTS];
        let answer = look_up(self.table, &position.keyed()).expect("legal");
        let list = moves(position);
        let tried = match answer.value {
            Value::Win(_) => answer.best.as_slice(),
            _ => list.as_slice(),
        };
        for &chosen in tried {
            let later = self.after(position, chosen);
            (0..COUNTS).for_each(|count| spoilt[count] |= later[count]);
        }
        if let Value::Loss(_) = answer.value {
            (0..COUNTS).for_each(|count| spoilt[count] |= may_claim(count as u32, position));
        }
        self.judged[number] = Some(spoilt);
        spoilt
    }
}

fn marked_exactly(truth: &Truth) -> Verdict {
    for man in MEN {
        let table = truth.table(man);
        let mut lines = Lines { table, judged: vec![None; NUMBERS] };
        for number in (0..NUMBERS).filter(|&number| table[number] >= MATED) {
            let position = position_of(man, number).expect("used");
            let spoilt = lines.of(&position);
            for count in 0..=MOST_COUNT {
                let counted = look_up_counted(table, &position.keyed(), count);
                let marked = counted.map(|counted| counted.within_fifty) == Ok(true);
                let clear = !spoilt[count as usize];
                expect(marked == clear, || format!("{position:?} at {count}: marked {marked}"))?;
            }
        }
    }
    Ok(())
}

fn claims(truth: &Truth) -> Verdict {
    for number in (0..NUMBERS).filter(|&number| truth.table(Man::Rook)[number] >= MATED) {
        let position = position_of(Man::Rook, number).expect("used");
        let mated = truth.table(Man::Rook)[number] == MATED;
        let told = [98, 99, 100].map(|count| may_claim(count, &position));
        expect(told == [false, !mated, !mated], || format!("{position:?}: {told:?}"))?;
    }
    Ok(())
}

fn nineteen(truth: &Truth) -> Verdict {
    let table = truth.table(Man::Queen);
    let number = table.iter().position(|&byte| byte == MATED + 1).expect("a mate in 1");
    let keyed = position_of(Man::Queen, number).expect("used").keyed();
    let mut wrong = table.to_vec();
    wrong[number] = MATED + 3;
    let code = |bytes: &[u8], count| look_up_counted(bytes, &keyed, count).err().map(|r| r.0);
    let told = [code(table, 99), code(table, 100), code(table, u32::MAX), code(&wrong, 100)];
    expect(told == [None, Some(19), Some(19), Some(11)], || format!("{told:?}"))
}
