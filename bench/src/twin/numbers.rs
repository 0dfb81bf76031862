//! The number of a place, and the place of a number.

use super::{Men, Place, OFF};

pub const PAIRS: usize = 462;
pub const SMALL: usize = 2 * PAIRS * 64;
pub const LARGE: usize = 2 * PAIRS * 4096;

/// The white king on the files a to d, not above the diagonal; the black one not above it where the
/// white one is on it; apart.
const fn is_pair(white: usize, black: usize) -> bool {
    let (wf, wr, bf, br) = (white % 8, white / 8, black % 8, black / 8);
    let apart = wf.abs_diff(bf) > 1 || wr.abs_diff(br) > 1;
    wf < 4 && wr <= wf && apart && (wr != wf || br <= bf)
}

/// The pair of two kings' squares, 65535 where there is none; and the kings of a pair.
const fn pairs() -> ([u16; 4096], [u16; PAIRS]) {
    let (mut forth, mut back) = ([65535; 4096], [0; PAIRS]);
    let (mut kings, mut count) = (0, 0);
    while kings < 4096 {
        if is_pair(kings / 64, kings % 64) {
            forth[kings] = count as u16;
            back[count] = kings as u16;
            count += 1;
        }
        kings += 1;
    }
    (forth, back)
}

pub static PAIR_OF: [u16; 4096] = pairs().0;
static KINGS_OF: [u16; PAIRS] = pairs().1;

/// The files of all four squares of a key.
const FILES: u32 = 0o07_07_07_07;

/// The bits that bring this white king to the files a to d and the ranks 1 to 4.
pub fn flip_of(white: u8) -> u8 {
    let files = if white % 8 > 3 { 7 } else { 0 };
    let ranks = if white / 8 > 3 { 56 } else { 0 };
    files | ranks
}

/// Like men, the lower square first.
fn rising(like: bool, key: u32) -> u32 {
    let (x, y) = (key / 64 % 64, key % 64);
    if like && y < x {
        key / 4096 * 4096 + y * 64 + x
    } else {
        key
    }
}

/// Four squares of six bits each.
fn key_of(q: Place) -> u32 {
    let second = if q.second == OFF { 0 } else { q.second };
    [q.white, q.black, q.first, second].into_iter().fold(0, |key, square| key * 64 + square as u32)
}

/// The least key of its class.
fn least(like: bool, key: u32) -> u32 {
    let key = key ^ flip_of((key / 64 / 4096) as u8) as u32 * 0o01_01_01_01;
    let transposed = (key / 8 & FILES) + (key & FILES) * 8;
    rising(like, key).min(rising(like, transposed))
}

fn number_keyed(men: Men, side: u8, key: u32) -> usize {
    let key = least(men.alike(), key) as usize;
    let kings = side as usize * PAIRS + PAIR_OF[key / 4096 % 4096] as usize;
    if men.single() {
        kings * 64 + key / 64 % 64
    } else {
        kings * 4096 + key % 4096
    }
}

pub fn number(men: Men, q: Place) -> usize {
    number_keyed(men, q.side, key_of(q))
}

/// All but the white king, who is to move: their key, into which his square is put.
#[derive(Clone, Copy)]
pub struct Others {
    men: Men,
    key: u32,
}

impl Others {
    pub fn new(men: Men, black: u8, first: u8, second: u8) -> Others {
        Others { men, key: key_of(Place { side: 0, white: 0, black, first, second }) }
    }

    pub fn number(self, white: u8) -> usize {
        number_keyed(self.men, 0, self.key + white as u32 * 64 * 4096)
    }
}

/// The number of a man left alone, of either side.
pub fn number_alone(colour: u8, q: Place, square: u8) -> usize {
    let men = Men { first: 0, second: 4, colour: 0 };
    let (side, white, black) = match colour {
        0 => (q.side, q.white, q.black),
        _ => (1 - q.side, q.black, q.white),
    };
    number(men, Place { side, white, black, first: square, second: OFF })
}

pub fn place(men: Men, n: usize) -> Place {
    let (lead, first, second) =
        if men.single() { (n / 64, n % 64, OFF) } else { (n / 4096, n / 64 % 64, (n % 64) as u8) };
    let kings = KINGS_OF[lead % PAIRS];
    let [white, black] = [kings / 64, kings % 64].map(|square| square as u8);
    Place { side: (lead / PAIRS) as u8, white, black, first: first as u8, second }
}

/// Is the number of what stands there used: no two on one square, and nothing less?
pub fn is_used(men: Men, q: Place, n: usize) -> bool {
    let apart = |square: u8| square != q.white && square != q.black;
    apart(q.first) && apart(q.second) && q.first != q.second && number(men, q) == n
}

/// What the kings and the side to move fix of a number: it serves all the moves of a man.
#[derive(Clone, Copy)]
pub struct Frame {
    kings: usize,
    flip: u8,
    exchange: Exchange,
}

/// Are file and rank exchanged?
#[derive(Clone, Copy)]
pub enum Exchange {
    No,
    Yes,
    WhereLess,
}

fn transposed(square: u8) -> u8 {
    square % 8 * 8 + square / 8
}

pub fn exchange(white: u8, black: u8) -> Exchange {
    for king in [white, black] {
        if king % 8 < king / 8 {
            return Exchange::Yes;
        }
        if king % 8 > king / 8 {
            return Exchange::No;
        }
    }
    Exchange::WhereLess
}

/// Numbers at equal steps from a base: one for each square of a man.
#[derive(Clone, Copy)]
pub struct Line {
    base: usize,
    flip: u8,
    scale: usize,
}

impl Line {
    pub fn number(self, square: u8) -> usize {
        self.base + (square ^ self.flip) as usize * self.scale
    }
}

impl Frame {
    /// The line of a man, where nothing is exchanged: the other man's square, and the man's scale.
    pub fn line(self, men: Men, still: u8, scale: usize) -> Option<Line> {
        let other = (still ^ self.flip) as usize;
        let base = match (men.single(), scale) {
            (true, _) => self.kings * 64,
            (_, 64) => self.kings * 4096 + other,
            _ => self.kings * 4096 + other * 64,
        };
        let plain = matches!(self.exchange, Exchange::No) && !men.alike();
        plain.then_some(Line { base, flip: self.flip, scale })
    }

    pub fn new(side: u8, white: u8, black: u8) -> Frame {
        let flip = flip_of(white);
        let (white, black) = (white ^ flip, black ^ flip);
        let exchange = exchange(white, black);
        let (w, b) = match exchange {
            Exchange::Yes => (transposed(white), transposed(black)),
            _ => (white, black),
        };
        let pair = PAIR_OF[w as usize * 64 + b as usize];
        Frame { kings: side as usize * PAIRS + pair as usize, flip, exchange }
    }

    /// The number with the men on these squares.
    pub fn number(self, men: Men, first: u8, second: u8) -> usize {
        let like = men.alike();
        let x = first ^ self.flip;
        let y = if men.single() { 0 } else { second ^ self.flip };
        let digits = |x: u8, y: u8| {
            let (x, y) = if like && y < x { (y, x) } else { (x, y) };
            x as usize * 64 + y as usize
        };
        let chosen = match self.exchange {
            Exchange::No => digits(x, y),
            Exchange::Yes => digits(transposed(x), transposed(y)),
            Exchange::WhereLess => digits(x, y).min(digits(transposed(x), transposed(y))),
        };
        if men.single() {
            self.kings * 64 + chosen / 64
        } else {
            self.kings * 4096 + chosen
        }
    }
}
