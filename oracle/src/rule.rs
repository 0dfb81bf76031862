//! The rule that ties a table's byte to the bytes at the successors.

/// Byte 0: unused or illegal.
pub const UNUSED: u8 = 0;
/// Byte 1: draw.
pub const DRAW: u8 = 1;
/// Byte 2 + n: depth n; checkmate is a loss in 0.
pub const MATED: u8 = 2;
/// "Depth n, from 0 to 253."
pub const GREATEST_DEPTH: u8 = 253;

/// What a byte says of the side to move.
#[derive(Clone, Copy, PartialEq, Eq, Debug)]
pub enum Value {
    Win(u8),
    Loss(u8),
    Draw,
}

/// "Odd n is a win for the side to move, even n a loss"; byte 0 "counts as a draw".
pub fn value(byte: u8) -> Value {
    match byte {
        UNUSED | DRAW => Value::Draw,
        _ if byte % 2 == 1 => Value::Win(byte - MATED),
        _ => Value::Loss(byte - MATED),
    }
}

/// What has been seen of a position's successors, kept as bytes: the fills add millions.
#[derive(Clone, Copy)]
pub struct Successors {
    any: bool,
    draw: bool,
    /// The least byte of a loss; NO_LOSS, which is no loss's byte, for none.
    least_loss: u8,
    greatest_win: u8,
}

const NO_LOSS: u8 = u8::MAX;

impl Successors {
    pub fn none() -> Successors {
        Successors { any: false, draw: false, least_loss: NO_LOSS, greatest_win: MATED }
    }

    #[inline]
    pub fn add(&mut self, byte: u8) {
        let win = byte > MATED && byte % 2 == 1;
        let loss = byte >= MATED && !win;
        self.any = true;
        self.draw |= byte < MATED;
        self.least_loss = self.least_loss.min(if loss { byte } else { NO_LOSS });
        self.greatest_win = self.greatest_win.max(if win { byte } else { MATED });
    }

    /// The byte that a legal position must hold; none where its depth would exceed 253,
    /// "every byte is wrong".
    #[inline]
    pub fn required(&self, in_check: impl FnOnce() -> bool) -> Option<u8> {
        if !self.any {
            // Checkmate, or stalemate: "all moves win" holds of no moves, yet it is a draw.
            return Some(if in_check() { MATED } else { DRAW });
        }
        if self.least_loss != NO_LOSS {
            return Some(self.least_loss + 1);
        }
        if self.draw {
            return Some(DRAW);
        }
        // The greatest byte, 255, is a win in 253: one more is too deep.
        self.greatest_win.checked_add(1)
    }
}

/// 2 + n, or none for a depth above 253.
pub fn byte_of_depth(depth: u16) -> Option<u8> {
    if depth > GREATEST_DEPTH as u16 {
        return None;
    }
    Some(MATED + depth as u8)
}
