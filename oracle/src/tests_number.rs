//! Self tests of the numbering.

use crate::board::{above_diagonal, file, on_diagonal, rank};
use crate::counts::numbering;
use crate::index;
use crate::number::{
    back, normalised, number, number_of, position_of, NUMBERS, PAIR, PAIRS, WHITE_SQUARES,
};
use crate::position::{Keyed, KeyedMan, Man, Position, Refused, Side, MEN};
use crate::samples::Sequence;
use crate::selftest::{every_keyed_of, expect, Test, Truth, Verdict};
use crate::symmetry::{mapped, position_mapped};

pub const TESTS: &[Test] = &[
    ("462 pairs, with 01's rows `Black squares` and `First pair`", pair_rows),
    ("28,056 used numbers a side", used_numbers),
    ("numbering back refuses 1, 8 and 9 in that order", back_refusals),
    ("number(back(n)) = n for every used n", number_of_back),
    ("one image of the eight is numbered, all have its number, and classes cover all", classes),
    (
        "same number exactly when one of eight maps, with or without the exchange of colours, on \
         60,000 pairs",
        same_number,
    ),
    ("the fills' prepared numbering is the plain one everywhere", prepared_numbering),
];

fn pair_rows(_: &Truth) -> Verdict {
    let black_squares = [33, 58, 58, 58, 30, 55, 55, 30, 55, 30];
    let first_pair = [0, 33, 91, 149, 207, 237, 292, 347, 377, 432];
    let mut next = 0;
    for slot in 0..10 {
        let pairs: Vec<u16> =
            PAIR[slot].iter().copied().filter(|&pair| (pair as usize) < PAIRS).collect();
        let square = WHITE_SQUARES[slot];
        expect(pairs.len() == black_squares[slot], || format!("{} on {square}", pairs.len()))?;
        let first = pairs.first().copied();
        expect(first == Some(first_pair[slot]), || format!("first pair {first:?} on {square}"))?;
        for pair in pairs {
            expect(pair == next, || format!("pair {pair} where {next} is due"))?;
            next += 1;
        }
    }
    expect(next as usize == PAIRS, || format!("{next} pairs"))
}

fn used_numbers(_: &Truth) -> Verdict {
    for man in MEN {
        let used = numbering(man).used;
        expect(used == [28_056; 2], || format!("{} uses {used:?}", man.name()))?;
    }
    Ok(())
}

fn back_refusals(_: &Truth) -> Verdict {
    let cases = [
        (4, 2049, Some(1)),
        (255, u64::MAX, Some(1)),
        (4, 2056, Some(1)),
        (0, 59_136, Some(8)),
        (3, u64::MAX, Some(8)),
        (0, 2056, Some(9)),
        (2, 59_135, Some(9)),
        (1, 59_127, None),
    ];
    for (man, number, refusal) in cases {
        let found = back(man, number).err();
        expect(found == refusal.map(Refused), || format!("{man} {number}: {found:?}"))?;
    }
    Ok(())
}

fn used_positions(man: Man) -> impl Iterator<Item = (usize, Position)> {
    (0..NUMBERS).filter_map(move |number| Some((number, position_of(man, number)?)))
}

fn number_of_back(_: &Truth) -> Verdict {
    for man in MEN {
        for (number, position) in used_positions(man) {
            let again = number_of(&position);
            expect(again == number, || format!("{number} came back as {again}"))?;
            expect(normalised(&position) == position, || format!("{position:?} moved"))?;
        }
    }
    Ok(())
}

/// 01's three sentences on the position that is numbered, word for word.
pub fn is_numbered(position: &Position) -> bool {
    let Position { white_king, man_square, black_king, .. } = *position;
    let in_octant = file(white_king) <= 3 && rank(white_king) <= file(white_king);
    let black_right = !on_diagonal(white_king) || !above_diagonal(black_king);
    let both = on_diagonal(white_king) && on_diagonal(black_king);
    in_octant && black_right && (!both || !above_diagonal(man_square))
}

fn images(position: &Position) -> Vec<Position> {
    let mut images: Vec<Position> = Vec::new();
    for map in 0..8 {
        let image = position_mapped(map, position);
        if !images.contains(&image) {
            images.push(image);
        }
    }
    images
}

fn classes(_: &Truth) -> Verdict {
    for man in MEN {
        let mut covered = 0;
        for (number, position) in used_positions(man) {
            let images = images(&position);
            covered += images.len();
            let same = images.iter().all(|image| number_of(image) == number);
            expect(same, || format!("images of {number}"))?;
            let numbered = images.iter().filter(|image| is_numbered(image)).count();
            expect(numbered == 1, || format!("{numbered} numbered images of {number}"))?;
        }
        // 3,612 placements of two kings apart, 62 squares for the man, two sides.
        expect(covered == 3_612 * 62 * 2, || format!("classes cover {covered}"))?;
    }
    Ok(())
}

/// A record's images under the eight maps, with and without the exchange of colours.
fn images_as_keyed(keyed: &Keyed) -> Vec<Keyed> {
    let image = |map: u8, of: &Keyed| Keyed {
        side: of.side,
        white_king: mapped(map, of.white_king),
        black_king: mapped(map, of.black_king),
        men: of.men.map(|man| man.map(|m| KeyedMan { square: mapped(map, m.square), ..m })),
    };
    let exchanged = keyed.exchanged();
    (0..8).flat_map(|map| [image(map, keyed), image(map, &exchanged)]).collect()
}

/// A pair of records: any two, one mapped and perhaps exchanged, or a near miss with a square, the
/// side, or the colours of side and man changed.
fn pair_as_keyed(sequence: &mut Sequence, turn: u64) -> Option<(Keyed, Keyed)> {
    let man = MEN[sequence.below(4) as usize & 3];
    let mut drawn = || position_of(man, sequence.below(NUMBERS as u64) as usize);
    let (one, mut other) = (drawn()?.keyed(), drawn()?.keyed());
    let manner = turn % 6;
    if manner > 0 {
        other = images_as_keyed(&one)[sequence.below(16) as usize & 15];
    }
    let [Some(first), None] = &mut other.men else { return None };
    match manner {
        2 => first.square = sequence.square(),
        3 => other.black_king = sequence.square(),
        4 => other.side ^= 1,
        5 => {
            first.colour ^= 1;
            other.side ^= 1;
        }
        _ => {}
    }
    other.placed().ok()?;
    Some((one, other))
}

fn same_number(_: &Truth) -> Verdict {
    let mut sequence = Sequence(8);
    let (mut tried, mut alike) = (0u64, 0u64);
    while tried < 60_000 {
        let Some((one, other)) = pair_as_keyed(&mut sequence, tried) else { continue };
        tried += 1;
        let image = images_as_keyed(&one).contains(&other);
        alike += image as u64;
        let same = number(&one) == number(&other);
        expect(same == image, || format!("{one:?} and {other:?}"))?;
    }
    expect(alike > 10_000 && alike < 30_000, || format!("{alike} pairs alike"))
}

fn prepared_numbering(_: &Truth) -> Verdict {
    for man in MEN {
        for keyed in every_keyed_of(man, Side::White) {
            let Ok(position) = keyed.placed() else { continue };
            let same = index::number_of(&position) == number_of(&position);
            expect(same, || format!("{position:?}"))?;
        }
    }
    Ok(())
}
