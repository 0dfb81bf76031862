//! The library's functions for one man, for two and for a pawn, on any bytes and any lengths: whole
//! answers, as `include/sledgewren.h` has them.

use sledgewren::ffi as c;

/// Lengths of the tables of one man, of two and of a pawn, of the four small tables in one run, and of
/// a list of moves.
pub const SMALL_BYTES: usize = 59_136;
pub const LARGE_BYTES: usize = 3_784_704;
pub const PAWN_BYTES: usize = 196_608;
pub const RUN_BYTES: usize = 4 * SMALL_BYTES;
pub const LIST_BYTES: usize = 248;

/// The ending of king and pawn, which is also the pawn's code.
pub const PAWN: u32 = 4;

/// The two tables of one man that an ending of two is lent; a pawn's ending is lent all four in one
/// run as the first, and the second is not read; with one man neither is.
pub type Small<'a> = [&'a [u8]; 2];

pub const NONE: Small<'static> = [&[], &[]];

/// A position as C gives it: the side, the kings' squares, and a word for each man.
#[derive(Clone, Copy, PartialEq, Eq, Debug)]
pub struct Given {
    pub side: u8,
    pub white: u8,
    pub black: u8,
    pub first: u32,
    pub second: u32,
}

impl From<sledgewren::Keyed> for Given {
    fn from(keyed: sledgewren::Keyed) -> Given {
        let [first, second] = keyed.words();
        let (white, black) = (keyed.white_king, keyed.black_king);
        Given { side: keyed.side, white, black, first, second }
    }
}

/// The word of an ending of two men.
pub fn two_men([first, second]: [u8; 2], rivals: bool) -> u32 {
    first as u32 | (second as u32 + 1) << 8 | (rivals as u32) << 16
}

/// A man's word.
pub fn a_man(kind: u8, colour: u8, square: u8) -> u32 {
    u32::from_le_bytes([kind, colour, square, 1])
}

pub fn number(Given { side, white, black, first, second }: Given) -> u32 {
    // SAFETY: no pointers.
    unsafe { c::sledgewren_number(side, white, black, first, second) }
}

pub fn position(ending: u32, number: u32) -> u64 {
    // SAFETY: no pointers.
    unsafe { c::sledgewren_position(ending, number) }
}

pub fn count(Given { side, white, black, first, second }: Given) -> u32 {
    // SAFETY: no pointers.
    unsafe { c::sledgewren_count(side, white, black, first, second) }
}

pub fn ending(first: u32, second: u32) -> u32 {
    // SAFETY: no pointers.
    unsafe { c::sledgewren_ending(first, second) }
}

pub fn table_bytes(ending: u32) -> u32 {
    // SAFETY: no pointers.
    unsafe { c::sledgewren_table_bytes(ending) }
}

pub fn moves(given: Given, list: &mut [u8]) -> u32 {
    let Given { side, white, black, first, second } = given;
    let (start, len) = (list.as_mut_ptr(), list.len());
    // SAFETY: `start` leads to `len` bytes that nothing else refers to.
    unsafe { c::sledgewren_moves(side, white, black, first, second, start, len) }
}

/// `becomes` is 0, or 1 + the kind of the piece that a pawn becomes.
pub fn play(given: Given, from: u8, to: u8, becomes: u8) -> u64 {
    let Given { side, white, black, first, second } = given;
    // SAFETY: no pointers.
    unsafe { c::sledgewren_play(side, white, black, first, second, from, to, becomes) }
}

pub fn fill(ending: u32, [one, two]: Small, table: &mut [u8]) -> u32 {
    let (start, len) = (table.as_mut_ptr(), table.len());
    let ([first, second], [m, n]) = ([one.as_ptr(), two.as_ptr()], [one.len(), two.len()]);
    // SAFETY: each pointer leads to as many bytes as its length says; `start` is lent alone.
    unsafe { c::sledgewren_fill(ending, first, m, second, n, start, len) }
}

pub fn fill_back(ending: u32, [one, two]: Small, table: &mut [u8]) -> u32 {
    let (start, len) = (table.as_mut_ptr(), table.len());
    let ([first, second], [m, n]) = ([one.as_ptr(), two.as_ptr()], [one.len(), two.len()]);
    // SAFETY: each pointer leads to as many bytes as its length says; `start` is lent alone.
    unsafe { c::sledgewren_fill_back(ending, first, m, second, n, start, len) }
}

pub fn fill_start(ending: u32, table: &mut [u8]) -> u64 {
    // SAFETY: the pointer leads to as many bytes as its length says and is lent alone.
    unsafe { c::sledgewren_fill_start(ending, table.as_mut_ptr(), table.len()) }
}

pub fn fill_step(ending: u32, progress: u32, [one, two]: Small, table: &mut [u8]) -> u64 {
    let (start, len) = (table.as_mut_ptr(), table.len());
    let ([first, second], [m, n]) = ([one.as_ptr(), two.as_ptr()], [one.len(), two.len()]);
    // SAFETY: each pointer leads to as many bytes as its length says; `start` is lent alone.
    unsafe { c::sledgewren_fill_step(ending, progress, first, m, second, n, start, len) }
}

pub fn check(ending: u32, [one, two]: Small, table: &[u8]) -> u64 {
    let (start, len) = (table.as_ptr(), table.len());
    let ([first, second], [m, n]) = ([one.as_ptr(), two.as_ptr()], [one.len(), two.len()]);
    // SAFETY: each pointer leads to as many bytes as its length says.
    unsafe { c::sledgewren_check(ending, first, m, second, n, start, len) }
}

pub fn look_up(given: Given, plies: u32, [one, two]: Small, table: &[u8]) -> u64 {
    let Given { side, white, black, first, second } = given;
    let (start, len) = (table.as_ptr(), table.len());
    let ([small, other], [m, n]) = ([one.as_ptr(), two.as_ptr()], [one.len(), two.len()]);
    // SAFETY: each pointer leads to as many bytes as its length says.
    unsafe {
        c::sledgewren_look_up(
            side, white, black, first, second, plies, small, m, other, n, start, len,
        )
    }
}
