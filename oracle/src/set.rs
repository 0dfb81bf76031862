//! One file for all endings: a count, a row for each table, then the tables without gaps.

use crate::fill_back;
use crate::number::NUMBERS;
use crate::position::{Refused, MEN};
use crate::rule::UNUSED;

/// A yes or no for each material code.
pub type Choice = [bool; 4];

/// Count, code, offset and length take four bytes each, the lowest first.
const FIELD: usize = 4;

/// All sixteen choices; bit k of the place says whether ending k is chosen.
pub fn choices() -> impl Iterator<Item = Choice> {
    (0..16).map(|place| [0, 1, 2, 3].map(|code| place >> code & 1 == 1))
}

/// The chosen codes, rising.
fn codes(choice: Choice) -> impl Iterator<Item = u8> {
    MEN.into_iter().map(|man| man.code()).filter(move |&code| choice[code as usize & 3])
}

/// A count, and a code, an offset and a length for each table.
fn header_length(choice: Choice) -> usize {
    FIELD + 3 * FIELD * codes(choice).count()
}

/// The length of the whole set: 4 bytes with none, 236,596 with all four.
pub fn set_length(choice: Choice) -> usize {
    header_length(choice) + NUMBERS * codes(choice).count()
}

/// Where the tables lie: each chosen code with its offset from the file's start.
fn places(choice: Choice) -> impl Iterator<Item = (u8, usize)> {
    let first = header_length(choice);
    codes(choice).enumerate().map(move |(row, code)| (code, first + row * NUMBERS))
}

/// The header that the rules give for a choice of endings.
pub fn header(choice: Choice) -> Vec<u8> {
    let mut fields = vec![codes(choice).count()];
    for (code, offset) in places(choice) {
        fields.extend([code as usize, offset, NUMBERS]);
    }
    fields.into_iter().flat_map(|field| (field as u32).to_le_bytes()).collect()
}

/// Writes a set into the bytes lent: refused 14, with nothing written, unless they are as
/// long as the choice needs; refused 10 leaves them all zero.
pub fn write_set(choice: Choice, set: &mut [u8]) -> Result<(), Refused> {
    if set.len() != set_length(choice) {
        return Err(Refused(14));
    }
    let (head, tables) = set.split_at_mut(header_length(choice));
    head.copy_from_slice(&header(choice));
    let filled = codes(choice)
        .zip(tables.chunks_mut(NUMBERS))
        .try_for_each(|(code, part)| fill_back::fill(code, part).map(|_| ()));
    if filled.is_err() {
        set.fill(UNUSED);
    }
    filled
}

/// The choice of which these bytes are a set. A right header says its own choice, so at
/// most one of the sixteen fits.
pub fn choice_of(set: &[u8]) -> Option<Choice> {
    choices().find(|&choice| set.len() == set_length(choice) && set.starts_with(&header(choice)))
}

/// Where a set holds an ending, as offset and length: refusals 1, 14, 15, the lowest first.
pub fn find(set: &[u8], code: u8) -> Result<(usize, usize), Refused> {
    if code as usize >= MEN.len() {
        return Err(Refused(1));
    }
    let choice = choice_of(set).ok_or(Refused(14))?;
    let found = places(choice).find(|&(held, _)| held == code);
    found.map(|(_, offset)| (offset, NUMBERS)).ok_or(Refused(15))
}

/// "The very part of the set that holds the ending."
pub fn part(set: &[u8], code: u8) -> Result<&[u8], Refused> {
    let (offset, length) = find(set, code)?;
    set.get(offset..offset + length).ok_or(Refused(14))
}
