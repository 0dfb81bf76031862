//! Self tests of two men's numbers.

use crate::board::{above_diagonal, file, on_diagonal, rank};
use crate::ending::{arranged, Ending};
use crate::four_number::{
    back, least, number, number_of, number_of_any, position_of, NUMBERS_OF_TWO,
};
use crate::index;
use crate::number;
use crate::placement::{Limit, Placement};
use crate::position::{Refused, Side, MEN};
use crate::samples::Sequence;
use crate::selftest::{expect, Verdict};
use crate::selftest_four::{drawn, FourTest, FourTruth};
use crate::symmetry::mapped;

pub const TESTS: &[FourTest] = &[
    ("a number is the least of all changes, on drawn positions of either colour", least_of_all),
    ("same number exactly when a change makes one into the other, on 400,000 pairs", same_number),
    ("numbering back refuses 1, 8 and 9; 3,784,704 numbers", back_refusals),
    ("one man's numbers stay", one_man_stays),
    ("legal positions as many as document 000 counts (tables 10, 14a and 14b)", published_counts),
];

/// Over every number of every ending.
pub const COUNTS: &[FourTest] =
    &[("number(back(n)) = n, one position a class, and classes cover all placements", classes)];

/// All that the two men's position may be changed into: maps, the men's order, the exchange of
/// colours but for like kinds one each.
fn changes(placement: &Placement) -> Vec<Placement> {
    let mut all = Vec::new();
    let [Some(one), Some(other)] = placement.men else { return all };
    let exchangeable = one.kind != other.kind || one.colour == other.colour;
    for map in 0..8 {
        let turned = placement.mapped(|square| mapped(map, square));
        let mut swapped = turned;
        swapped.men.reverse();
        all.extend([turned, swapped]);
        if exchangeable {
            all.extend([turned.exchanged(), swapped.exchanged()]);
        }
    }
    all
}

/// The number that 02 writes for a board whose first man is White's and of the earlier kind, with
/// the kings where 01's rule has them; none for any other board.
fn written(placement: &Placement) -> Option<usize> {
    let [Some(first), Some(second)] = placement.men else { return None };
    let [white, black] = placement.kings;
    let kings_right = file(white) <= 3
        && rank(white) <= file(white)
        && (!on_diagonal(white) || !above_diagonal(black));
    let first_right = first.colour == Side::White && first.kind.code() <= second.kind.code();
    if !kings_right || !first_right {
        return None;
    }
    let pair = number::pair_of(white, black)? as usize;
    let side = placement.side.code() as usize;
    Some(((side * 462 + pair) * 64 + first.square as usize) * 64 + second.square as usize)
}

fn least_of_all(_: &FourTruth) -> Verdict {
    let mut sequence = Sequence(20);
    for ending in Ending::all() {
        for _ in 0..5_000 {
            let placement = drawn(&mut sequence, ending);
            let found = number(&placement.keyed(), Limit::TwoMen).ok();
            let due = changes(&placement).iter().filter_map(written).min();
            expect(found == due, || format!("{placement:?}: {found:?}, not {due:?}"))?;
            let Some((of, board)) = arranged(&placement) else {
                return Err("one man".to_string());
            };
            expect(of == ending, || format!("{placement:?} is {}", of.name()))?;
            let quick = number_of(ending, &board);
            expect(Some(quick) == due, || format!("{placement:?}: quickly {quick}"))?;
        }
    }
    Ok(())
}

fn classes(_: &FourTruth) -> Verdict {
    for ending in Ending::all() {
        let mut covered = 0;
        for number in 0..NUMBERS_OF_TWO {
            let Some(placement) = position_of(ending, number) else { continue };
            let found = least(ending, &placement).0;
            expect(found == number, || format!("{number} came back as {found}"))?;
            let mut images: Vec<_> = (0..8).map(|map| squares(ending, &placement, map)).collect();
            images.sort();
            images.dedup();
            covered += images.len();
        }
        // 3,612 placements of two kings apart, 62 and 61 squares for the men, two sides.
        let orders = if ending.like() { 2 } else { 1 };
        let all = 3_612 * 62 * 61 * 2 / orders;
        expect(covered == all, || format!("{}: classes cover {covered}", ending.name()))?;
    }
    Ok(())
}

/// The squares under a map, like men's in rising order.
fn squares(ending: Ending, placement: &Placement, map: u8) -> [u8; 4] {
    let turned = placement.mapped(|square| mapped(map, square));
    let [white, black] = turned.kings;
    let mut men = turned.men.map(|man| man.map_or(64, |man| man.square));
    if ending.like() {
        men.sort();
    }
    [white, black, men[0], men[1]]
}

fn same_number(_: &FourTruth) -> Verdict {
    let mut sequence = Sequence(21);
    let ask = |one: &Placement, other: &Placement| {
        let (Some((of, _)), Some((its, _))) = (arranged(one), arranged(other)) else {
            return Err("one man".to_string());
        };
        let same = of == its && number_of_any(one) == number_of_any(other);
        expect(same == changes(one).contains(other), || format!("{one:?} and {other:?}"))
    };
    for ending in Ending::all() {
        for _ in 0..5_000 {
            let one = drawn(&mut sequence, ending);
            let turned = one.mapped(|square| mapped(sequence.0 as u8 >> 5, square));
            let mut other = turned;
            // A position near by: often of the same class, often not.
            match sequence.below(5) {
                0 => other = other.exchanged(),
                1 => other.men.reverse(),
                2 => other.kings.reverse(),
                3 => other.side = other.side.other(),
                _ => {}
            }
            ask(&one, &other)?;
            ask(&one, &turned)?;
            ask(&one, &turned.exchanged())?;
            ask(&one, &drawn(&mut sequence, ending))?;
        }
    }
    Ok(())
}

fn back_refusals(_: &FourTruth) -> Verdict {
    expect(NUMBERS_OF_TWO == 3_784_704, || format!("{NUMBERS_OF_TWO} numbers"))?;
    let cases = [
        ([4, 0], 0, Some(1)),
        ([0, 4], u64::MAX, Some(1)),
        ([1, 0], 3_784_704, Some(1)),
        ([0, 1], 3_784_704, Some(8)),
        ([3, 3], u64::MAX, Some(8)),
        // a1, c1 and the first man on a1.
        ([0, 1], 1, Some(9)),
        ([0, 1], 64, Some(9)),
        ([0, 1], 65, Some(9)),
        ([0, 1], 67, None),
        ([0, 1], 3_784_703, Some(9)),
    ];
    for (codes, number, refusal) in cases {
        for one_each in [false, true] {
            let found = back(codes, one_each, number).err();
            expect(found == refusal.map(Refused), || format!("{codes:?} {number}: {found:?}"))?;
        }
    }
    // b1 and d1 with kings a1 and c1, White to move: like men in falling order are unused.
    let falling = [back([1, 1], false, 64 * 3 + 1), back([1, 1], true, 64 * 3 + 1)];
    expect(falling[0] == Err(Refused(9)) && falling[1].is_ok(), || format!("{falling:?}"))
}

fn one_man_stays(_: &FourTruth) -> Verdict {
    for man in MEN {
        for number in 0..number::NUMBERS {
            let Some(position) = number::position_of(man, number) else { continue };
            let placement = Placement::from(&position);
            let found = [number_of_any(&placement), number_of_any(&placement.exchanged())];
            let right = found == [Some(number); 2] && index::number_of(&position) == number;
            expect(right, || format!("{found:?}, not {number}"))?;
        }
    }
    Ok(())
}

/// Index elements less broken positions, White to move and Black to move. Document 000 leaves both
/// kings on the diagonal unreduced. Four names are misprinted in it: KQQK as KQOK, KQRK as KQORK,
/// KRBK as KRBB and KRKR as KRRR and KRR; the printed shares of broken positions tell which they are.
const LEGAL: &[(&str, usize, usize)] = &[
    ("KBBK", 789_885 - 139_093, 873_642),
    ("KBNK", 1_550_620 - 158_939, 1_747_284),
    ("KNNK", 735_304, 873_642),
    ("KQBK", 1_512_507 - 526_735, 1_747_284),
    ("KQNK", 1_459_616 - 404_593, 1_747_284),
    ("KQQK", 698_739 - 336_585, 873_642),
    ("KQRK", 1_500_276 - 616_152, 1_747_284),
    ("KRBK", 1_594_560 - 396_136, 1_747_284),
    ("KRNK", 1_538_479 - 271_935, 1_747_284),
    ("KRRK", 777_300 - 245_132, 873_642),
    ("KBKB", 1_661_823 - 147_587, 1_661_823 - 147_587),
    ("KBKN", 1_661_823 - 147_587, 1_603_202),
    ("KNKN", 1_603_202, 1_603_202),
    ("KQKB", 1_563_735 - 418_147, 1_661_823 - 147_587),
    ("KQKN", 1_563_735 - 418_147, 1_603_202),
    ("KQKQ", 1_563_735 - 418_147, 1_563_735 - 418_147),
    ("KQKR", 1_563_735 - 418_147, 1_649_196 - 270_560),
    ("KRKB", 1_649_196 - 270_560, 1_661_823 - 147_587),
    ("KRKN", 1_649_196 - 270_560, 1_603_202),
    ("KRKR", 1_649_196 - 270_560, 1_649_196 - 270_560),
];

/// Legal placements with the kings on one of the 462 pairs, counted without any numbering of men.
fn legal_count(ending: Ending, side: Side) -> usize {
    let pairs = number::KINGS_OF_PAIR.iter();
    let boards = pairs.flat_map(|&(white, black)| {
        (0..4096u16).map(move |place| ([white, black], [(place / 64) as u8, (place % 64) as u8]))
    });
    let legal = boards.filter(|&(kings, [first, second])| {
        let ordered = !ending.like() || first < second;
        let placement = ending.placement(side, kings, [first, second]);
        ordered
            && first != second
            && !kings.contains(&first)
            && !kings.contains(&second)
            && crate::laws::legal(&placement)
    });
    legal.count()
}

fn published_counts(_: &FourTruth) -> Verdict {
    for &(name, white, black) in LEGAL {
        let Some(ending) = Ending::named(name) else { return Err(name.to_string()) };
        let found = [Side::White, Side::Black].map(|side| legal_count(ending, side));
        expect(found == [white, black], || format!("{name}: {found:?}, not {white}, {black}"))?;
    }
    expect(LEGAL.len() == Ending::all().count(), || "not all endings".to_string())
}
