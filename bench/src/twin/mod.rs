//! The library's second fill written again in Rust, to be measured beside it: the same steps over the
//! same numbers, with nothing unsafe.

mod bare;
mod board;
mod fill;
mod moves;
mod numbers;
mod retract;
mod rows;

pub use fill::fill;

/// The kind of a king; queen 0, rook 1, bishop 2, knight 3.
const KING: u8 = 5;

/// Off the board: a man who is not there.
const OFF: u8 = 64;

/// The men of an ending: the first's kind, who is White's; the second's, 4 where there is none, and
/// his colour.
#[derive(Clone, Copy)]
struct Men {
    first: u8,
    second: u8,
    colour: u8,
}

impl Men {
    fn single(self) -> bool {
        self.second >= 4
    }

    /// Two men of one kind and one side.
    fn alike(self) -> bool {
        self.first == self.second && self.colour == 0
    }
}

/// Where an ending's pieces stand.
#[derive(Clone, Copy)]
struct Place {
    side: u8,
    white: u8,
    black: u8,
    first: u8,
    second: u8,
}

fn carried(from: u8, to: u8, square: u8) -> u8 {
    if square == from {
        to
    } else {
        square
    }
}

/// A man's square after a move: off the board if he is taken.
fn after(from: u8, to: u8, square: u8) -> u8 {
    if square == to {
        OFF
    } else {
        carried(from, to, square)
    }
}

impl Place {
    fn king(self, side: u8) -> u8 {
        if side == 0 {
            self.white
        } else {
            self.black
        }
    }

    fn occupied(self) -> u64 {
        let men = board::one(self.first) | board::one(self.second);
        board::one(self.white) | board::one(self.black) | men
    }

    /// The place after a move.
    fn moved(self, from: u8, to: u8) -> Place {
        Place {
            side: 1 - self.side,
            white: carried(from, to, self.white),
            black: carried(from, to, self.black),
            first: after(from, to, self.first),
            second: after(from, to, self.second),
        }
    }
}
