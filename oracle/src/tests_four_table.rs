//! Self tests of two men's tables: greatest depths, the checker, refusals, the fills.

use crate::four_back;
use crate::four_counts::greatest_of;
use crate::four_every;
use crate::four_fill::FillOfTwo;
use crate::four_number::NUMBERS_OF_TWO;
use crate::four_table::{check, Tables};
use crate::number::NUMBERS;
use crate::position::{Refused, Side, SIDES};
use crate::samples::Sequence;
use crate::selftest::{expect, Verdict};
use crate::selftest_four::{FourTest, FourTruth, Large};
use crate::table::Checked;

pub const TESTS: &[FourTest] = &[
    ("greatest depths of all twenty endings by winner and side (document 000)", published_depths),
    ("the checker accepts all twenty tables", all_accepted),
    ("damaged tables: the lowest wrong number", damaged),
    ("1, then 7 of all tables, then 17; the table stays", refusals),
    ("the fill of every position at every depth leaves the same", fills_agree),
];

/// Tables 8a and 8b: 1-0 wins with White to move and with Black to move, then 0-1 wins; -1 for a
/// dash. KRKR's row is printed as KRRK's.
#[rustfmt::skip]
const PRINTED: &[(&str, [i16; 4])] = &[
    ("KQQK", [4, 10, -1, -1]), ("KQRK", [6, 16, -1, -1]), ("KQBK", [8, 10, -1, -1]),
    ("KQNK", [9, 10, -1, -1]), ("KRRK", [7, 16, -1, -1]), ("KRBK", [16, 16, -1, -1]),
    ("KRNK", [16, 16, -1, -1]), ("KBBK", [19, 19, -1, -1]), ("KBNK", [33, 33, -1, -1]),
    ("KNNK", [1, 0, -1, -1]), ("KQKQ", [13, 12, 12, 13]), ("KQKR", [35, 35, 18, 19]),
    ("KQKB", [17, 17, -1, -1]), ("KQKN", [21, 21, -1, -1]), ("KRKR", [19, 19, 19, 19]),
    ("KRKB", [29, 29, -1, -1]), ("KRKN", [40, 40, 0, 1]), ("KBKB", [1, 0, 0, 1]),
    ("KBKN", [1, 0, 0, 1]), ("KNKN", [1, 0, 0, 1]),
];

/// "(n + 1) / 2, rounded down", or -1 where no position is decided.
fn winners_moves(depth: Option<u8>) -> i16 {
    depth.map_or(-1, |depth| (depth as i16 + 1) / 2)
}

/// The greatest depths in the winner's moves, in document 000's columns.
pub fn columns(large: &[u8]) -> [i16; 4] {
    let of = |winner, to_move| winners_moves(greatest_of(large, winner, to_move));
    let [white, black] = SIDES;
    [of(white, white), of(white, black), of(black, white), of(black, black)]
}

fn published_depths(truth: &FourTruth) -> Verdict {
    for &(name, due) in PRINTED {
        let Some(large) = truth.of(name) else { return Err(name.to_string()) };
        let found = columns(&large.bytes);
        expect(found == due, || format!("{name}: {found:?}, not {due:?}"))?;
        let sides = [Side::White, Side::Black];
        let each = sides.map(|winner| sides.map(|side| greatest_of(&large.bytes, winner, side)));
        let greatest = each.into_iter().flatten().max().flatten();
        expect(large.filled == Ok(greatest), || format!("{name}: {:?}", large.filled))?;
    }
    expect(PRINTED.len() == truth.large.len(), || "not all endings".to_string())
}

fn checked(truth: &FourTruth, large: &Large, bytes: &[u8]) -> Result<Checked, Refused> {
    let ending = large.ending;
    check(ending.codes(), ending.one_each, bytes, truth.small.bytes(ending))
}

fn all_accepted(truth: &FourTruth) -> Verdict {
    for large in &truth.large {
        let found = checked(truth, large, &large.bytes);
        expect(found == Ok(Checked::Accepted), || format!("{}: {found:?}", large.ending.name()))?;
    }
    Ok(())
}

/// A byte altered is wrong itself; only a number that leads to it, or it, may be the lowest.
fn damaged(truth: &FourTruth) -> Verdict {
    let mut sequence = Sequence(30);
    for large in &truth.large {
        let mut bytes = large.bytes.clone();
        let place = sequence.below(NUMBERS_OF_TWO as u64) as usize;
        bytes[place] = bytes[place].wrapping_add(1 + sequence.below(254) as u8);
        let (ending, small) = (large.ending, truth.small.lent(large.ending));
        let table = bytes[..].try_into().map_err(|_| "a length".to_string())?;
        let tables = Tables { ending, large: table, small };
        let lowest = (0..=place).find(|&number| tables.required(number) != Some(bytes[number]));
        let found = checked(truth, large, &bytes);
        let due = lowest.map(Checked::Wrong).ok_or("nothing is wrong".to_string())?;
        expect(found == Ok(due), || format!("{}: {found:?}, not {due:?}", ending.name()))?;
    }
    Ok(())
}

/// Codes, the lengths of the large table and of the small ones, which of the small ones holds a
/// wrong byte, and the refusal.
type Asked = ([u8; 2], [usize; 3], Option<usize>, u8);

const REFUSED: &[Asked] = &[
    ([4, 0], [0, 0, 0], None, 1),
    ([0, 4], [NUMBERS_OF_TWO, NUMBERS, NUMBERS], None, 1),
    ([1, 0], [NUMBERS_OF_TWO, NUMBERS, NUMBERS], None, 1),
    ([0, 1], [NUMBERS, NUMBERS, NUMBERS], None, 7),
    ([0, 1], [NUMBERS_OF_TWO - 1, NUMBERS, NUMBERS], Some(0), 7),
    ([0, 1], [NUMBERS_OF_TWO, NUMBERS - 1, NUMBERS], Some(1), 7),
    ([0, 1], [NUMBERS_OF_TWO, NUMBERS, NUMBERS + 1], Some(0), 7),
    ([0, 1], [NUMBERS_OF_TWO, NUMBERS, NUMBERS], Some(0), 17),
    ([0, 1], [NUMBERS_OF_TWO, NUMBERS, NUMBERS], Some(1), 17),
    ([2, 2], [NUMBERS_OF_TWO, NUMBERS, NUMBERS], Some(1), 17),
];

fn refusals(truth: &FourTruth) -> Verdict {
    let fills: [FillOfTwo; 2] = [four_back::fill, four_every::fill];
    for &(codes, [length, first, second], wrong, refusal) in REFUSED {
        let small = |slot: usize, length: usize| {
            let code = codes[slot].min(3) as usize;
            let name = ["KQQK", "KRRK", "KBBK", "KNNK"][code];
            let ending = truth.of(name).map(|large| large.ending);
            let mut table = ending.map_or(vec![], |of| truth.small.bytes(of)[0].to_vec());
            table.resize(length, 0);
            if wrong == Some(slot) {
                table[100] ^= 1;
            }
            table
        };
        let small = [small(0, first), small(1, second)];
        let small = [&small[0][..], &small[1][..]];
        let mut bytes = vec![77; length];
        for one_each in [false, true] {
            let found = check(codes, one_each, &bytes, small).err();
            expect(found == Some(Refused(refusal)), || format!("checking {codes:?}: {found:?}"))?;
            for fill in fills {
                let found = fill(codes, one_each, &mut bytes, small).err();
                let right = found == Some(Refused(refusal)) && bytes.iter().all(|&b| b == 77);
                expect(right, || format!("filling {codes:?}: {found:?}"))?;
            }
        }
    }
    Ok(())
}

fn fills_agree(truth: &FourTruth) -> Verdict {
    for name in ["KQQK", "KNNK", "KBKN"] {
        let Some(large) = truth.of(name) else { return Err(name.to_string()) };
        let mut bytes = vec![165; NUMBERS_OF_TWO];
        let ending = large.ending;
        let small = truth.small.bytes(ending);
        let found = four_every::fill(ending.codes(), ending.one_each, &mut bytes, small);
        expect(found == large.filled && bytes == large.bytes, || format!("{name}: {found:?}"))?;
    }
    Ok(())
}
