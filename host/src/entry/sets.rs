//! The entry points of a set of tables.

use std::ops::Range;

use super::{bits, broken, unless_refused};
use crate::{ffi, Choice, Man, Refusal};

fn keyed(choice: Choice) -> [u8; 4] {
    Man::ALL.map(|man| choice.has(man) as u8)
}

/// Writes the chosen endings' tables as one set. Refusal 14, where the bytes are not
/// [`Choice::set_bytes`] many, leaves them untouched; 10 leaves them all zero.
pub fn set_write(choice: Choice, set: &mut [u8]) -> Result<(), Refusal> {
    let [queen, rook, bishop, knight] = keyed(choice);
    let (start, len) = (set.as_mut_ptr(), set.len());
    // SAFETY: the slice's pointer leads to as many bytes as its length says, and is lent to us
    // alone.
    let answer = unsafe { ffi::sledgewren_set_write(queen, rook, bishop, knight, start, len) };
    unless_refused("set_write", answer as u64).map(|_| ())
}

/// Writes a set's header and leaves the bytes after it, for [`set_fill`] to fill. Refusal 14
/// leaves all bytes untouched.
pub fn set_start(choice: Choice, set: &mut [u8]) -> Result<(), Refusal> {
    let [queen, rook, bishop, knight] = keyed(choice);
    let (start, len) = (set.as_mut_ptr(), set.len());
    // SAFETY: the slice's pointer leads to as many bytes as its length says, and is lent to us
    // alone.
    let answer = unsafe { ffi::sledgewren_set_start(queen, rook, bishop, knight, start, len) };
    unless_refused("set_start", answer as u64).map(|_| ())
}

/// Fills one ending's table in its own part of a set and gives its greatest depth, or none if no
/// position is decided. Refusals 1, 14 and 15 leave the bytes untouched, 10 leaves them all zero.
pub fn set_fill(man: impl Into<u8>, set: &mut [u8]) -> Result<Option<u8>, Refusal> {
    // SAFETY: the slice's pointer leads to as many bytes as its length says, and is lent to us
    // alone.
    let answer = unsafe { ffi::sledgewren_set_fill(man.into(), set.as_mut_ptr(), set.len()) };
    let answer = unless_refused("set_fill", answer as u64)?;
    Ok((bits(answer, 8) & 1 == 1).then_some(bits(answer, 16)))
}

/// Where a set holds an ending's table. Refusals 1, 14, 15.
pub fn set_find(set: &[u8], man: impl Into<u8>) -> Result<Range<usize>, Refusal> {
    // SAFETY: the slice's pointer leads to as many bytes as its length says.
    let answer = unsafe { ffi::sledgewren_set_find(man.into(), set.as_ptr(), set.len()) };
    let answer = unless_refused("set_find", answer)?;
    let (offset, length) = ((answer >> 32) as usize, (answer >> 8) as usize & 0xFF_FFFF);
    let place = offset..offset + length;
    match set.get(place.clone()) {
        Some(_) => Ok(place),
        None => broken("set_find", answer),
    }
}
