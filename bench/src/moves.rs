//! The move list and its count, for each position.

use std::hint::black_box;
use std::mem::MaybeUninit;

use second::position::Keyed as SecondKeyed;
use second::rules::{legal_position, moves};
use sledgewren::{entry, ffi, Keyed, Man, Side, MOVES_BYTES};

use crate::positions::{legal, second};
use crate::timing::{medians, timed, Of, Row};

/// The oracle's way to the same answer: refusals 1 to 6, then the list.
pub fn oracle_moves(keyed: &SecondKeyed) -> usize {
    legal_position(keyed).map_or(0, |position| {
        let list = moves(&position);
        black_box(&list).as_slice().len()
    })
}

/// The C function as it is: the safe one also makes squares of the bytes. It writes every byte that
/// it is lent, so that nothing is cleared beforehand; neither side's list is copied.
pub fn library_moves(keyed: Keyed) -> usize {
    let Keyed { side, white_king, black_king, .. } = keyed;
    let [first, second] = keyed.words();
    let mut list = MaybeUninit::<[u8; MOVES_BYTES]>::uninit();
    let (start, len) = (list.as_mut_ptr().cast::<u8>(), MOVES_BYTES);
    // SAFETY: `start` leads to `len` bytes that nothing else refers to, and none is read.
    let answer =
        unsafe { ffi::sledgewren_moves(side, white_king, black_king, first, second, start, len) };
    black_box(&list);
    (answer >> 8) as usize
}

pub fn library_count(keyed: Keyed) -> usize {
    entry::count(keyed).map_or(0, |count| count as usize)
}

/// Moves and count of every legal position with one side to move.
pub fn rows(man: Man, side: Side, repeats: usize) -> Result<[Row; 2], String> {
    let positions = legal(man, side);
    let seconds: Vec<SecondKeyed> = positions.iter().copied().map(second).collect();
    let mut total = (0, 0);
    let mut row = |name: &str, goal: f64, ours: fn(Keyed) -> usize| {
        let (library, other) = medians(
            repeats,
            || timed(|| total.0 = positions.iter().map(|&keyed| ours(keyed)).sum()),
            || timed(|| total.1 = seconds.iter().map(oracle_moves).sum()),
        );
        if total.0 != total.1 {
            return Err(format!("{man}, {side}: {} moves and {}", total.0, total.1));
        }
        let what = format!("{name}, {man}, {side} to move");
        Ok(Row {
            what,
            library,
            beside: "oracle's list",
            other,
            of: Of::Each(positions.len()),
            goal: Some(goal),
        })
    };
    Ok([row("moves", 2.0, library_moves)?, row("count", 1.2, library_count)?])
}
