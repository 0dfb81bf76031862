//! The entry point that plays a move.

use super::{bits, unless_refused};
use crate::{ffi, Keyed, KeyedMan, Refusal};

/// The sixteen bits of a man, and the bit in them that says that he is there.
const MAN_BITS: u32 = 16;
const THERE: u64 = 1 << 5;

/// The position after a legal move from a square to another, a man left alone in the first place;
/// none where the move is not legal. `becomes` is 1 + the code of what a pawn becomes, and 0 in
/// every other move; [`Move::becomes_byte`](crate::Move::becomes_byte) gives it. With bare kings
/// there is no man. Refusals 1 to 6 and 18.
pub fn play(
    keyed: impl Into<Keyed>,
    from: u8,
    to: u8,
    becomes: u8,
) -> Result<Option<Keyed>, Refusal> {
    const NOT_LEGAL: u64 = 0x8000;
    let keyed = keyed.into();
    let (Keyed { side, white_king, black_king, .. }, [first, second]) = (keyed, keyed.words());
    // SAFETY: no pointers.
    let answer = unsafe {
        ffi::sledgewren_play(side, white_king, black_king, first, second, from, to, becomes)
    };
    if unless_refused("play", answer)? == NOT_LEGAL {
        return Ok(None);
    }
    Ok(Some(Keyed {
        side: bits(answer, 8) & 1,
        white_king: bits(answer, 16),
        black_king: bits(answer, 24),
        men: [32, 32 + MAN_BITS].map(|first| man(answer >> first)),
    }))
}

/// The man of sixteen bits, if there is one.
fn man(short: u64) -> Option<KeyedMan> {
    (short & THERE != 0).then_some(KeyedMan {
        kind: (short & 15) as u8,
        colour: (short >> 4 & 1) as u8,
        square: (short >> 8) as u8,
    })
}
