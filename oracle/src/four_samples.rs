//! Positions of two men for the test program: chosen for what they show, and refused ones.

use crate::placement::{Limit, Placement};
use crate::position::{Keyed, KeyedMan, Man, Side};

/// Side to move, the kings, White's first, then the men in their slots: capitals are White's.
#[rustfmt::skip]
const CHOSEN: &[&str] = &[
    // Slots and colours exchanged: one number.
    "w a1 h8 Qb1 Rc1", "w a1 h8 Rc1 Qb1", "b h8 a1 qb1 rc1", "b h8 a1 rc1 qb1", "w h8 a1 Qh7 Rh6",
    // Like men exchanged, mirrored, and with both kings on the diagonal.
    "w a1 h8 Qb1 Qc1", "w a1 h8 Qc1 Qb1", "w a1 h8 Na2 Nb1", "w c3 e5 Rc4 Rd3", "b d4 f6 bb5 be2",
    "w a1 h8 Bc1 Na3", "w a1 h8 Ba3 Nc1",
    // The later kind is White's, or in the first slot: the queen's side counts as White.
    "w d4 g7 Ra5 qh6", "b d4 g7 qh6 Ra5", "b g7 d4 Qh6 ra5", "w e1 c8 nf3 Bg7", "b e1 c8 Bg7 nh3",
    // Like kinds one each: White's is first in either slot, and colours are not exchanged.
    "w a1 h8 Qb1 qg7", "w a1 h8 qg7 Qb1", "b h8 a1 qb1 Qg7", "b c3 f7 Nd5 ng2", "w c3 f7 nd5 Ng2",
    // Captures by either side, guarded and not.
    "w e4 a8 Rd5 nd8", "b e4 a8 Rd5 nd8", "b c1 f3 Bf4 Ng2", "w d4 h3 Qd8 rd5", "b a1 e5 Re6 qe8",
    // Pinned men, and a king in check.
    "w a1 h8 Ra2 ra8", "w a1 h1 Bb2 qf6", "b a2 e8 Re1 ne7", "w e1 h8 Nd2 re8", "b b3 e8 Bb5 rd7",
    // Most moves, mates and stalemates.
    "w g7 h4 Qe3 Qd5", "b a1 h8 Rg1 Rh2", "b b6 a8 Bd5 Na6", "b c7 a8 Nb6 na7", "w a8 c7 Na7 nb6",
    "b g6 h8 Qg7 qa2", "b f7 h8 Qg6 Na1", "b b6 a8 Rh8 bb8", "b b6 a8 Rh8 nb8", "w a1 c2 qb3 rh8",
    // The side not to move is in check: numbered, and its moves refused 6.
    "w a1 h8 Qh1 Nb1", "b a1 h8 Rb2 ra8", "w a1 h8 bb2 Bc3", "b e1 e8 Nc3 qe5",
];

/// Man, side, white king, man's square, black king, colour, then the second man, his colour and
/// square: each refused, 1 to 5, some for several reasons.
#[rustfmt::skip]
const REFUSED: &[[u8; 9]] = &[
    [4, 0, 0, 1, 63, 0, 1, 0, 2], [0, 0, 0, 1, 63, 0, 4, 0, 2], [255, 0, 0, 1, 63, 0, 255, 0, 2],
    [0, 2, 64, 1, 63, 2, 4, 2, 64], [0, 2, 0, 1, 63, 0, 1, 0, 2], [1, 0, 0, 1, 63, 2, 1, 0, 2],
    [1, 0, 0, 1, 63, 0, 1, 2, 2], [2, 1, 64, 1, 63, 0, 1, 255, 2], [0, 0, 64, 1, 63, 0, 1, 1, 2],
    [0, 0, 0, 64, 63, 0, 1, 1, 2], [0, 1, 0, 1, 64, 0, 1, 1, 2], [3, 1, 0, 1, 63, 0, 3, 1, 64],
    [3, 1, 0, 64, 63, 0, 3, 1, 64], [2, 0, 5, 5, 63, 0, 2, 0, 64], [0, 0, 0, 1, 63, 0, 1, 1, 1],
    [1, 0, 0, 0, 63, 1, 2, 1, 7], [1, 0, 0, 7, 63, 1, 2, 1, 0], [2, 1, 0, 63, 63, 0, 3, 0, 7],
    [3, 1, 0, 7, 63, 0, 3, 1, 63], [3, 1, 9, 7, 9, 0, 3, 1, 62], [0, 0, 0, 0, 1, 0, 0, 0, 7],
    [0, 0, 0, 7, 9, 0, 0, 0, 5], [1, 1, 27, 7, 36, 1, 2, 0, 5], [3, 0, 63, 0, 62, 1, 3, 1, 1],
];

fn square(name: &str) -> Option<u8> {
    match *name.as_bytes() {
        [file @ b'a'..=b'h', rank @ b'1'..=b'8'] => Some(8 * (rank - b'1') + (file - b'a')),
        _ => None,
    }
}

/// A man's letter and square, `Qb1` White's and `qb1` Black's.
fn man(text: &str) -> Option<KeyedMan> {
    let letter = *text.as_bytes().first()?;
    let kind = Man::from_letter(letter.to_ascii_uppercase())?.code();
    let colour = if letter.is_ascii_lowercase() { Side::Black } else { Side::White };
    Some(KeyedMan { kind, colour: colour.code(), square: square(text.get(1..)?)? })
}

/// `w a1 h8 Qb1 Rc1`: the side to move, the kings' squares and one man or two.
pub fn keyed_of(text: &str) -> Option<Keyed> {
    let mut words = text.split(' ');
    let side = match words.next()? {
        "w" => Side::White,
        "b" => Side::Black,
        _ => return None,
    };
    let [white_king, black_king] = [square(words.next()?)?, square(words.next()?)?];
    let first = Some(man(words.next()?)?);
    let second = words.next().and_then(man);
    Some(Keyed { side: side.code(), white_king, black_king, men: [first, second] })
}

fn of_line(
    [kind, side, white_king, square, black_king, colour, other, its, place]: [u8; 9],
) -> Keyed {
    let first = KeyedMan { kind, colour, square };
    let second = KeyedMan { kind: other, colour: its, square: place };
    Keyed { side, white_king, black_king, men: [Some(first), Some(second)] }
}

/// The chosen positions and then the refused ones.
pub fn positions() -> Vec<Keyed> {
    let chosen = CHOSEN.iter().filter_map(|text| keyed_of(text));
    chosen.chain(REFUSED.iter().copied().map(of_line)).collect()
}

pub fn chosen() -> impl Iterator<Item = Placement> {
    CHOSEN.iter().filter_map(|text| keyed_of(text)?.placement(Limit::TwoMen).ok())
}

/// A keyed position as an input line.
pub fn line(keyed: &Keyed) -> String {
    let Keyed { side, white_king, black_king, men } = *keyed;
    let [Some(first), second] = men else { return String::new() };
    let KeyedMan { kind, colour, square } = first;
    let one = format!("{kind} {side} {white_king} {square} {black_king} {colour}");
    match second {
        Some(KeyedMan { kind, colour, square }) => format!("{one} {kind} {colour} {square}"),
        None => one,
    }
}
