//! The lines that `oracle positions` writes: chosen positions, chosen refusals, and
//! lines drawn from a fixed sequence.

use std::collections::BTreeSet;

use crate::board::{king_attack, Square, Squares};
use crate::desk::read_position;
use crate::number::{position_of, NUMBERS};
use crate::position::{Keyed, Man, Position, Refused, Side, MEN, SIDES};
use crate::rules::{legal, legal_position, moves};

/// A linear congruential sequence: the same numbers on every machine.
pub struct Sequence(pub u64);

impl Sequence {
    pub fn below(&mut self, end: u64) -> u64 {
        self.0 = self.0.wrapping_mul(6364136223846793005).wrapping_add(1442695040888963407);
        (self.0 >> 33) % end.max(1)
    }

    pub fn square(&mut self) -> Square {
        self.below(64) as Square
    }
}

/// A line of the sample: man, side, white king, man's square, black king, colour.
pub type Line = [u8; 6];

pub fn keyed_of([man, side, white_king, square, black_king, colour]: Line) -> Keyed {
    Keyed::of_one([man, colour, square], side, [white_king, black_king])
}

/// Legal positions and some refused 6, chosen for what they show.
#[rustfmt::skip]
const CHOSEN: &[&str] = &[
    // 01's bench and run.
    "Q w a1 b1 h8", "Q w a1 a2 h8", "Q w h8 h7 a1", "Q w a1 h8 c1", "R b a3 h1 a1",
    "Q b b3 b2 a1", "Q b e5 b3 a1", "R b a1 a5 e5", "R w c1 a1 e1", "Q w b3 h2 a1",
    "Q b h8 b2 a1", "Q w b3 b2 a1",
    // A line passes through the square the king leaves.
    "R b a1 e8 e4", "R b h8 d1 d4", "R b a1 h5 e5", "R b c8 a8 f8", "B b a1 a8 e4",
    "B b a1 h1 e4", "B b h2 a1 d4", "B b a2 h8 d4", "Q b h8 a4 e4", "Q b h7 a1 d4",
    "Q b a2 h8 d4", "Q b a8 e1 e4", "Q b c1 h5 e5", "Q b a1 b8 e5",
    // The white king stands in his own man's line.
    "R b c1 a1 e1", "R w e3 e1 e5", "R b e3 e1 e5", "R w d4 h4 b4", "R b d4 h4 b4",
    "Q w d4 a1 f6", "Q b d4 a1 f6", "Q w e3 e1 e5", "Q b e3 e1 e5", "Q w c6 a8 e4",
    "Q b c6 a8 e4", "B w d4 a1 f6", "B b d4 a1 f6", "B w d5 h1 b7", "B b d5 h1 b7",
    // The man is hemmed in by its own king, or stands in a corner.
    "R w b1 a1 h8", "R w a2 a1 h7", "Q w b2 a1 h7", "Q w a2 a1 g8", "B w b2 a1 g8",
    "B w b7 a8 f1", "N w b3 a1 h8", "N w c2 a1 h8", "N w f7 h8 a1", "N w g6 h8 a1",
    // The black king takes a man that nothing guards.
    "R b h8 b2 a1", "B b h8 b2 a1", "N b h8 b2 a1", "Q b a8 h2 h1", "R b a8 h2 h1",
    "R b a8 g1 h1", "B b a8 g2 h1", "B b a8 h2 h1", "N b a8 g2 h1", "N b a1 e5 e4",
    "Q b a1 e5 e4", "R b a1 d5 e4", "B b a1 e3 e4", "Q b h4 a7 a8",
    // The man is guarded by its king.
    "R b b3 b2 a1", "R b c3 b2 a1", "B b b3 b2 a1", "N b b3 b2 a1", "Q b c3 b2 a1",
    "Q b e3 e4 e5", "Q b d3 e4 e5", "R b d3 e4 e5", "B b d3 e4 e5", "N b d3 e4 e5",
    "R b f3 e4 d5", "B b f4 e4 d5", "N b c4 d4 e5",
    // Mates.
    "Q b g6 g7 h8", "Q b b6 b7 a8", "Q b f7 h2 h8", "Q b e6 e7 e8", "Q b c2 a4 a1",
    "R b e6 a8 e8", "R b f7 h1 h7", "R b c6 b1 a8", "R b b6 h8 a8", "R b c4 a8 a4",
    // Stalemates.
    "Q b f7 g6 h8", "Q b c7 b6 a8", "Q b a8 f2 h1", "B b b3 d3 a1", "B b a3 d3 a1",
    "N b b3 c3 a1", "N b b3 a3 a1", "R b f6 g7 h8",
    // The edges do not join: h-file and a-file, first and eighth rank.
    "Q b h1 c5 a2", "R b h2 c5 a3", "B b h4 e7 a5", "N b h7 c2 a8", "N w e1 h4 e8",
    "N w e2 a4 e8", "R b h3 d7 a4", "Q w h5 b3 a6",
];

/// Lines with a colour that is neither White's nor Black's, and what is asked before and after it.
#[rustfmt::skip]
const WRONG_COLOURS: &[Line] = &[
    [0, 0, 0, 1, 63, 2], [1, 1, 0, 1, 63, 3], [2, 0, 0, 1, 63, 64], [3, 1, 0, 1, 63, 255],
    [4, 0, 0, 1, 63, 2], [255, 255, 255, 255, 255, 255], [0, 2, 0, 1, 63, 2], [1, 0, 64, 1, 63, 2],
    [2, 0, 0, 0, 63, 2], [3, 1, 0, 7, 1, 128], [0, 0, 0, 7, 63, 2], [0, 1, 0, 7, 63, 2],
];

/// Refused lines: every refusal from 1 to 6, and several at once.
#[rustfmt::skip]
const REFUSED: &[[u8; 5]] = &[
    [4, 0, 0, 1, 63], [4, 1, 0, 1, 63], [5, 0, 27, 36, 63], [64, 0, 0, 1, 63],
    [128, 1, 0, 1, 63], [255, 0, 0, 1, 63], [255, 255, 255, 255, 255], [4, 2, 64, 64, 64],
    [4, 2, 0, 0, 0], [4, 0, 0, 0, 0], [4, 0, 0, 63, 1], [4, 0, 0, 7, 63], [81, 119, 97, 49, 98],
    [0, 2, 0, 1, 63], [1, 2, 0, 1, 63], [2, 3, 0, 1, 63], [3, 64, 0, 1, 63], [0, 128, 0, 1, 63],
    [1, 255, 0, 1, 63], [2, 2, 64, 1, 63], [3, 2, 0, 0, 0], [0, 2, 0, 63, 1], [1, 255, 255, 255, 255],
    [0, 0, 64, 1, 63], [0, 1, 0, 64, 63], [1, 0, 0, 1, 64], [2, 0, 255, 1, 63], [3, 1, 0, 255, 63],
    [0, 0, 0, 1, 255], [1, 1, 64, 64, 64], [2, 1, 0, 0, 64], [3, 0, 128, 1, 0], [0, 0, 0, 200, 1],
    [0, 1, 64, 0, 0], [1, 0, 255, 255, 255], [2, 0, 65, 9, 1],
    [0, 0, 0, 0, 63], [0, 0, 0, 1, 0], [0, 0, 0, 63, 63], [1, 1, 5, 5, 5], [2, 0, 0, 0, 1],
    [3, 0, 0, 1, 1], [1, 0, 63, 63, 0], [2, 1, 27, 36, 27], [3, 1, 27, 36, 36], [0, 1, 63, 63, 63],
    [1, 0, 0, 0, 7], [0, 0, 0, 0, 9],
    [0, 0, 0, 63, 9], [1, 0, 28, 0, 19], [1, 1, 28, 0, 20], [2, 0, 28, 0, 21], [2, 1, 28, 0, 27],
    [3, 0, 28, 0, 29], [3, 1, 28, 0, 35], [0, 0, 28, 0, 36], [0, 1, 28, 0, 37], [1, 0, 0, 7, 1],
    [2, 0, 0, 15, 8], [3, 0, 63, 45, 62], [0, 0, 63, 61, 55],
    [0, 0, 0, 7, 63], [0, 0, 2, 59, 56], [1, 0, 0, 7, 63], [1, 0, 10, 56, 59], [2, 0, 1, 7, 28],
    [2, 0, 8, 0, 63], [3, 0, 0, 46, 63], [3, 0, 0, 53, 63], [1, 0, 8, 0, 7],
];

/// The squares along the board's edge, and its corners.
const EDGE: u64 = 0xff81_8181_8181_81ff;
const CORNERS: u64 = 0x8100_0000_0000_0081;

fn one_of(sequence: &mut Sequence, set: u64) -> Square {
    let place = sequence.below(set.count_ones() as u64) as usize;
    Squares(set).nth(place).unwrap_or(0)
}

/// Squares for the three men in one of five manners.
fn draw(sequence: &mut Sequence, manner: u64) -> (Square, Square, Square) {
    let (king, man, black) = (sequence.square(), sequence.square(), sequence.square());
    match manner {
        1 => (king, man, one_of(sequence, EDGE)),
        2 => (king, man, one_of(sequence, CORNERS)),
        // The man next to the black king.
        3 => (king, one_of(sequence, king_attack(black)), black),
        // The white king two steps from the black one.
        4 => {
            let next = one_of(sequence, king_attack(black));
            (one_of(sequence, king_attack(next)), man, black)
        }
        _ => (king, man, black),
    }
}

fn drawn_legal(
    sequence: &mut Sequence,
    (man, colour): (Man, Side),
    side: Side,
    manner: u64,
) -> BTreeSet<Line> {
    let mut group = BTreeSet::new();
    for _ in 0..10_000 {
        let (white_king, square, black_king) = draw(sequence, manner);
        let line = [man.code(), side.code(), white_king, square, black_king, colour.code()];
        if group.len() < 8 && legal_position(&keyed_of(line)).is_ok() {
            group.insert(line);
        }
    }
    group
}

/// A byte that is more often right than not.
fn raw(sequence: &mut Sequence, right: u64) -> u8 {
    match sequence.below(8) {
        0 => [64, 255, 128, 4, 2][sequence.below(5) as usize % 5],
        1 => sequence.below(256) as u8,
        _ => sequence.below(right) as u8,
    }
}

fn drawn_refused(sequence: &mut Sequence, refusal: u8) -> BTreeSet<Line> {
    let mut group = BTreeSet::new();
    for _ in 0..10_000 {
        let mut byte = |right| raw(sequence, right);
        let line = [byte(4), byte(2), byte(64), byte(64), byte(64), Side::White.code()];
        if group.len() < 10 && legal_position(&keyed_of(line)) == Err(Refused(refusal)) {
            group.insert(line);
        }
    }
    group
}

/// Legal positions of one man and side with a given number of moves, spread over the numbers.
fn with_moves(man: Man, side: Side, count: usize) -> BTreeSet<Line> {
    let found: Vec<Line> = (0..NUMBERS)
        .filter_map(|number| position_of(man, number))
        .filter(|position| position.side == side && legal(position))
        .filter(|position| moves(position).as_slice().len() == count)
        .map(|Position { man, side, white_king, man_square, black_king }| {
            [man.code(), side.code(), white_king, man_square, black_king, Side::White.code()]
        })
        .collect();
    let apart = found.len().div_ceil(8).max(1);
    found.into_iter().step_by(apart).collect()
}

/// A position line as a sample line.
pub fn line_of(text: &str) -> Option<Line> {
    let Keyed { side, white_king, black_king, men } = read_position(text.as_bytes()).ok()?;
    men[0].map(|man| [man.kind, side, white_king, man.square, black_king, man.colour])
}

fn chosen_groups() -> [BTreeSet<Line>; 2] {
    let white = |&[man, side, white_king, square, black_king]: &[u8; 5]| {
        [man, side, white_king, square, black_king, Side::White.code()]
    };
    [CHOSEN.iter().filter_map(|text| line_of(text)).collect(), REFUSED.iter().map(white).collect()]
}

/// Each line once, in the first group that holds it; the lines of a group rise.
fn distinct(groups: Vec<BTreeSet<Line>>) -> Vec<Line> {
    let mut seen = BTreeSet::new();
    groups.into_iter().flatten().filter(|&line| seen.insert(line)).collect()
}

fn white_groups() -> Vec<BTreeSet<Line>> {
    let mut sequence = Sequence(2049);
    let mut groups = Vec::from(chosen_groups());
    for man in MEN {
        groups.push(with_moves(man, Side::Black, 0));
        groups.push(with_moves(man, Side::Black, 1));
        let most = [35, 22, 21, 16][man.code() as usize & 3];
        groups.push(with_moves(man, Side::White, most));
    }
    for man in MEN.map(|man| (man, Side::White)) {
        for side in SIDES {
            groups.extend((0..5).map(|manner| drawn_legal(&mut sequence, man, side, manner)));
        }
    }
    groups.extend((1..=6).map(|refusal| drawn_refused(&mut sequence, refusal)));
    groups
}

/// Lines with White's man.
pub fn white_lines() -> Vec<Line> {
    distinct(white_groups())
}

/// The man is Black's and nothing else is exchanged.
fn recoloured([man, side, white_king, square, black_king, _]: Line) -> Line {
    [man, side, white_king, square, black_king, Side::Black.code()]
}

/// Colours, kings and side to move are exchanged.
pub fn exchanged([man, side, white_king, square, black_king, _]: Line) -> Line {
    let other = Side::from_code(side).map_or(side, |side| side.other().code());
    [man, other, black_king, square, white_king, Side::Black.code()]
}

/// White's lines, and then such as have a man of Black's, or of neither side.
pub fn lines() -> Vec<Line> {
    let mut sequence = Sequence(9);
    let mut groups = white_groups();
    for group in chosen_groups() {
        groups.push(group.iter().copied().map(exchanged).collect());
        groups.push(group.into_iter().map(recoloured).collect());
    }
    for man in MEN.map(|man| (man, Side::Black)) {
        for side in SIDES {
            groups.extend((0..5).map(|manner| drawn_legal(&mut sequence, man, side, manner)));
        }
    }
    groups.push(WRONG_COLOURS.iter().copied().collect());
    distinct(groups)
}
