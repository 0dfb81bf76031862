//! A black king without men: White's pieces stand still.

use super::board::{one, targets};
use super::numbers::{exchange, flip_of, number, Exchange, PAIRS, PAIR_OF};
use super::{Men, Place, KING};

/// White's pieces, the bits that his king's reversals turn over, and the men's digits.
#[derive(Clone, Copy)]
pub struct Bare {
    men: Men,
    white: u8,
    pub first: u8,
    pub second: u8,
    flip: u8,
    digits: usize,
}

impl Bare {
    pub fn new(men: Men, white: u8, first: u8, second: u8) -> Bare {
        let flip = flip_of(white);
        let x = (first ^ flip) as usize;
        let digits = if men.single() { x } else { x * 64 + (second ^ flip) as usize };
        Bare { men, white, first, second, flip, digits }
    }

    /// The number with the black king on a square.
    pub fn number(&self, side: u8, black: u8) -> usize {
        let (w, b) = (self.white ^ self.flip, black ^ self.flip);
        if !matches!(exchange(w, b), Exchange::No) || self.men.alike() {
            let Bare { white, first, second, .. } = *self;
            return number(self.men, Place { side, white, black, first, second });
        }
        let pair = PAIR_OF[w as usize * 64 + b as usize] as usize;
        let kings = side as usize * PAIRS + pair;
        kings * if self.men.single() { 64 } else { 4096 } + self.digits
    }

    /// The squares that White's pieces attack with the black king lifted.
    pub fn struck(&self) -> u64 {
        let stood = one(self.white) | one(self.first) | one(self.second);
        targets(0, KING, self.white)
            | targets(stood, self.men.first, self.first)
            | targets(stood, self.men.second, self.second)
    }
}
