//! The library's entry points, one function each, on any bytes and any lengths.
//!
//! A position is given as [`Keyed`], bytes of any values, or as a
//! [`Position`](crate::Position); an ending as its word, or as an [`Ending`] or a [`Man`]. The
//! methods of the crate's types rest on these functions.

mod plays;
mod sets;

pub use plays::play;
pub use sets::{set_fill, set_find, set_start, set_write};

use crate::ffi;
use crate::{
    Answer, Checked, Ending, Keyed, KeyedMan, Man, Marked, Move, Moves, Opinion, Progress,
};
use crate::{Outcome, Refusal, Slip, Stage, Step, Tallies, Typed, MOVES_BYTES, SLIP_BYTES};

/// The linked library is not the one this crate is written for.
#[cold]
fn broken(entry: &str, answer: u64) -> ! {
    panic!("sledgewren_{entry} answered {answer:#x}, which its contract rules out")
}

#[inline]
fn bits(answer: u64, first: u32) -> u8 {
    (answer >> first) as u8
}

/// The answer if its lowest bits hold no refusal.
#[inline]
fn unless_refused(entry: &str, answer: u64) -> Result<u64, Refusal> {
    match bits(answer, 0) {
        0 => Ok(answer),
        code => Err(Refusal::from_code(code).unwrap_or_else(|| broken(entry, answer))),
    }
}

/// The number of a position, 0 to 59,135 with one piece, 0 to 3,784,703 with two, 0 to 196,607 with
/// a pawn. Refusals 1 to 5 and 18.
pub fn number(keyed: impl Into<Keyed>) -> Result<u32, Refusal> {
    const REFUSED: u32 = 0x8000_0000;
    let keyed = keyed.into();
    let (Keyed { side, white_king, black_king, .. }, [first, second]) = (keyed, keyed.words());
    // SAFETY: no pointers.
    let answer = unsafe { ffi::sledgewren_number(side, white_king, black_king, first, second) };
    if answer < REFUSED {
        return Ok(answer);
    }
    let refusal = u8::try_from(answer - REFUSED).ok().and_then(Refusal::from_code);
    Err(refusal.unwrap_or_else(|| broken("number", answer as u64)))
}

/// The position that a number of an ending stands for, as the library's words have it: the first
/// man White's, the second, if there is one, White's or, with one each, Black's. Refusals 1, 8, 9.
pub fn position(ending: impl Into<u32>, number: u32) -> Result<Keyed, Refusal> {
    let word = ending.into();
    // SAFETY: no pointers.
    let answer = unsafe { ffi::sledgewren_position(word, number) };
    unless_refused("position", answer)?;
    let ending = Ending::from_word(word).unwrap_or_else(|| broken("position", answer));
    let kind = ending.first().map_or(KeyedMan::PAWN, Man::code);
    let first = KeyedMan { kind, colour: 0, square: bits(answer, 24) };
    let second = ending.second().map(|man| KeyedMan {
        kind: man.code(),
        colour: ending.is_rivals() as u8,
        square: bits(answer, 40),
    });
    Ok(Keyed {
        side: bits(answer, 8),
        white_king: bits(answer, 16),
        black_king: bits(answer, 32),
        men: [Some(first), second],
    })
}

/// The ending of a position's men, in either order and of any colours, if there is one.
pub fn ending(keyed: impl Into<Keyed>) -> Option<Ending> {
    let [first, second] = keyed.into().words();
    // SAFETY: no pointers.
    Ending::from_word(unsafe { ffi::sledgewren_ending(first, second) })
}

/// How many bytes an ending's table has; 0 where there is no such ending.
pub fn table_bytes(ending: impl Into<u32>) -> usize {
    // SAFETY: no pointers.
    unsafe { ffi::sledgewren_table_bytes(ending.into()) as usize }
}

/// A number with its check digits, as a clerk types it. Refusals 8, 9.
pub fn write_number(number: u32) -> Result<Typed, Refusal> {
    // SAFETY: no pointers.
    let answer = unsafe { ffi::sledgewren_write_number(number) };
    unless_refused("write_number", answer)?;
    let typed = Typed::new(number, (answer >> 8).to_le_bytes());
    Ok(typed.unwrap_or_else(|| broken("write_number", answer)))
}

/// The version of the library that is linked: major, minor and patch.
pub fn version() -> [u8; 3] {
    // SAFETY: no pointers.
    let number = unsafe { ffi::sledgewren_version_number() } as u64;
    [16, 8, 0].map(|first| bits(number, first))
}

/// How many legal moves a position has, at most 62, and 35 with one piece; each promotion is one.
/// Refusals 1 to 6 and 18.
pub fn count(keyed: impl Into<Keyed>) -> Result<u8, Refusal> {
    let keyed = keyed.into();
    let (Keyed { side, white_king, black_king, .. }, [first, second]) = (keyed, keyed.words());
    // SAFETY: no pointers.
    let answer = unsafe { ffi::sledgewren_count(side, white_king, black_king, first, second) };
    Ok(bits(unless_refused("count", answer as u64)?, 8))
}

/// The legal moves by from-square, then to-square, then what a pawn becomes. Refusals 1 to 6 and
/// 18.
pub fn moves(keyed: impl Into<Keyed>) -> Result<Moves, Refusal> {
    let keyed = keyed.into();
    let (Keyed { side, white_king, black_king, .. }, [first, second]) = (keyed, keyed.words());
    let mut list = [0; MOVES_BYTES];
    let (start, len) = (list.as_mut_ptr(), list.len());
    // SAFETY: `start` leads to `len` bytes that nothing else refers to.
    let answer =
        unsafe { ffi::sledgewren_moves(side, white_king, black_king, first, second, start, len) }
            as u64;
    unless_refused("moves", answer)?;
    let moves = Moves::from_bytes(&list, bits(answer, 8) as usize);
    Ok(moves.unwrap_or_else(|| broken("moves", answer)))
}

/// The small tables that a call is lent beside an ending's own, whatever they hold. With two men:
/// that of the first man's kind and that of the second's. With a pawn: the four pieces' tables one
/// after the other as the first; the second is not read. With one piece neither is read.
#[derive(Clone, Copy, Debug)]
pub struct Lent<'a> {
    /// The table of the first man's kind, or the four of a pawn's ending.
    pub first: &'a [u8],
    /// The table of the second man's kind; with like kinds the same one.
    pub second: &'a [u8],
}

impl Lent<'_> {
    /// With one piece.
    pub const NONE: Lent<'static> = Lent { first: &[], second: &[] };
}

/// Writes the true table of an ending and gives its greatest depth, or none if no position is
/// decided. Refusals 1, 7 and 17 leave the bytes untouched, 10 leaves them all zero.
pub fn fill(ending: impl Into<u32>, lent: Lent, table: &mut [u8]) -> Result<Option<u8>, Refusal> {
    let Lent { first, second } = lent;
    // SAFETY: each pointer leads to as many bytes as its length says; the one that is written
    // through is lent to us alone.
    let answer = unsafe {
        ffi::sledgewren_fill(
            ending.into(),
            first.as_ptr(),
            first.len(),
            second.as_ptr(),
            second.len(),
            table.as_mut_ptr(),
            table.len(),
        )
    };
    let answer = unless_refused("fill", answer as u64)?;
    Ok((bits(answer, 8) & 1 == 1).then_some(bits(answer, 16)))
}

/// The same table, answer and refusals of pieces, quicker: it works back from the positions just
/// settled. King and pawn is refused 1.
pub fn fill_back(
    ending: impl Into<u32>,
    lent: Lent,
    table: &mut [u8],
) -> Result<Option<u8>, Refusal> {
    let Lent { first, second } = lent;
    // SAFETY: each pointer leads to as many bytes as its length says; the one that is written
    // through is lent to us alone.
    let answer = unsafe {
        ffi::sledgewren_fill_back(
            ending.into(),
            first.as_ptr(),
            first.len(),
            second.as_ptr(),
            second.len(),
            table.as_mut_ptr(),
            table.len(),
        )
    };
    let answer = unless_refused("fill_back", answer as u64)?;
    Ok((bits(answer, 8) & 1 == 1).then_some(bits(answer, 16)))
}

/// Starts filling in steps: every legal position's number is set to 1, every other one to 0.
/// Refusals 1 and 7 leave the bytes untouched.
pub fn fill_start(ending: impl Into<u32>, table: &mut [u8]) -> Result<Progress, Refusal> {
    let (start, len) = (table.as_mut_ptr(), table.len());
    // SAFETY: the slice's pointer leads to as many bytes as its length says, and is lent to us
    // alone.
    let answer = unsafe { ffi::sledgewren_fill_start(ending.into(), start, len) };
    Ok(Progress::from_word((unless_refused("fill_start", answer)? >> 32) as u32))
}

/// One step of filling, on any bytes and any progress, and the progress to hand to the next one.
/// The lent tables are read as they stand. Refusals 1 and 7 leave the bytes and the progress as
/// they were, 10 leaves the bytes all zero.
pub fn fill_step(
    ending: impl Into<u32>,
    progress: Progress,
    lent: Lent,
    table: &mut [u8],
) -> (Result<Step, Refusal>, Progress) {
    let Lent { first, second } = lent;
    // SAFETY: each pointer leads to as many bytes as its length says; the one that is written
    // through is lent to us alone.
    let answer = unsafe {
        ffi::sledgewren_fill_step(
            ending.into(),
            progress.word(),
            first.as_ptr(),
            first.len(),
            second.as_ptr(),
            second.len(),
            table.as_mut_ptr(),
            table.len(),
        )
    };
    let next = Progress::from_word((answer >> 32) as u32);
    let said = unless_refused("fill_step", answer).map(|answer| match next.stage() {
        Stage::Going(_) => Step::Settled(answer as u32 >> 8),
        Stage::Done(greatest) => Step::Done(greatest),
        Stage::TooDeep => broken("fill_step", answer),
    });
    (said, next)
}

/// Holds every byte of a table to the one that its successors' bytes require. Refusals 1, 7, 17.
pub fn check(ending: impl Into<u32>, lent: Lent, table: &[u8]) -> Result<Checked, Refusal> {
    let Lent { first, second } = lent;
    // SAFETY: each pointer leads to as many bytes as its length says.
    let answer = unsafe {
        ffi::sledgewren_check(
            ending.into(),
            first.as_ptr(),
            first.len(),
            second.as_ptr(),
            second.len(),
            table.as_ptr(),
            table.len(),
        )
    };
    let answer = unless_refused("check", answer)?;
    match bits(answer, 8) & 1 {
        0 => Ok(Checked::Accepted),
        _ => Ok(Checked::Wrong((answer >> 32) as u32)),
    }
}

/// A position's value, depth and move from the table of its ending and, with two men or a pawn, the
/// lent ones; they do not hang on the count. Refusals 1 to 7, 11 and 18.
#[inline]
pub fn look_up(keyed: impl Into<Keyed>, lent: Lent, table: &[u8]) -> Result<Answer, Refusal> {
    look_up_at(keyed, 0, lent, table).map(|marked| marked.answer)
}

/// The same with the plies since the last capture, 0 to 99, and whether a win or a loss comes
/// before a fifty-move claim at that count, which is not told with a pawn. Refusals 1 to 7, 11, 18,
/// and 19 for more than 99 plies.
#[inline]
pub fn look_up_at(
    keyed: impl Into<Keyed>,
    plies: u32,
    lent: Lent,
    table: &[u8],
) -> Result<Marked, Refusal> {
    let keyed = keyed.into();
    let (Keyed { side, white_king, black_king, .. }, [first, second]) = (keyed, keyed.words());
    // SAFETY: each pointer leads to as many bytes as its length says.
    let answer = unsafe {
        ffi::sledgewren_look_up(
            side,
            white_king,
            black_king,
            first,
            second,
            plies,
            lent.first.as_ptr(),
            lent.first.len(),
            lent.second.as_ptr(),
            lent.second.len(),
            table.as_ptr(),
            table.len(),
        )
    };
    unless_refused("look_up", answer)?;
    let chosen = || Move::from_bytes(((answer >> 32) as u32).to_le_bytes());
    let given = bits(answer, 24) & 1 == 1;
    let best = given.then(|| chosen().unwrap_or_else(|| broken("look_up", answer)));
    let depth = bits(answer, 16);
    let found = match bits(answer, 8) {
        1 => Answer::Win { depth, best },
        2 => Answer::Loss { depth, best },
        3 => Answer::Draw { best },
        _ => broken("look_up", answer),
    };
    Ok(Marked { answer: found, within_fifty: bits(answer, 24) & 2 == 2 })
}

/// The value and exact depth if that is at most so many plies, by a search without tables.
/// Refusals 1 to 6 and 16.
pub fn second_opinion(keyed: impl Into<Keyed>, plies: u8) -> Result<Opinion, Refusal> {
    let keyed = keyed.into();
    let (Keyed { side, white_king, black_king, .. }, [first, second]) = (keyed, keyed.words());
    // SAFETY: no pointers.
    let answer = unsafe {
        ffi::sledgewren_second_opinion(side, white_king, black_king, first, second, plies)
    };
    let answer = unless_refused("second_opinion", answer as u64)?;
    match bits(answer, 8) {
        1 => Ok(Opinion::Win(bits(answer, 16))),
        2 => Ok(Opinion::Loss(bits(answer, 16))),
        4 => Ok(Opinion::NotWithin),
        _ => broken("second_opinion", answer),
    }
}

/// Answers one line of the desk, given without its newline. The table holds the table of the man
/// held, and is filled where the line needs another one. Gives the slip and the man held then.
/// [`Desk`](crate::Desk) keeps both.
pub fn answer_line(line: &[u8], held: Option<Man>, table: &mut [u8]) -> (Slip, Option<Man>) {
    const NO_MAN: u8 = 4;
    let mut slip = [0; SLIP_BYTES];
    // SAFETY: each pointer leads to as many bytes as its length says; the two that are written
    // through are lent to us alone.
    let answer = unsafe {
        ffi::sledgewren_answer_line(
            held.map_or(NO_MAN, Man::code),
            line.as_ptr(),
            line.len(),
            table.as_mut_ptr(),
            table.len(),
            slip.as_mut_ptr(),
            slip.len(),
        )
    } as u64;
    let slip = Slip::new(slip, bits(answer, 0) as usize);
    let slip = slip.unwrap_or_else(|| broken("answer_line", answer));
    (slip, Man::from_code(bits(answer, 8)))
}

/// Packs a table's bytes, whatever they say, to two bits a number. Refusal 7 covers both lengths
/// and leaves the pocket untouched.
pub fn pack(table: &[u8], pocket: &mut [u8]) -> Result<(), Refusal> {
    // SAFETY: each pointer leads to as many bytes as its length says; the one that is written
    // through is lent to us alone.
    let answer = unsafe {
        ffi::sledgewren_pack(table.as_ptr(), table.len(), pocket.as_mut_ptr(), pocket.len())
    };
    unless_refused("pack", answer as u64)?;
    Ok(())
}

/// A position's value from a pocket, without depth or move. Refusals 1 to 7 and 11.
pub fn pocket_look_up(pocket: &[u8], keyed: impl Into<Keyed>) -> Result<Outcome, Refusal> {
    let keyed = keyed.into();
    let (Keyed { side, white_king, black_king, .. }, [first, second]) = (keyed, keyed.words());
    let (start, len) = (pocket.as_ptr(), pocket.len());
    // SAFETY: the slice's pointer leads to as many bytes as its length says.
    let answer = unsafe {
        ffi::sledgewren_pocket_look_up(side, white_king, black_king, first, second, start, len)
    } as u64;
    match bits(unless_refused("pocket_look_up", answer)?, 8) {
        1 => Ok(Outcome::Win),
        2 => Ok(Outcome::Loss),
        3 => Ok(Outcome::Draw),
        _ => broken("pocket_look_up", answer),
    }
}

/// How many numbers have each of the four entries of a pocket. Refusal 7.
pub fn tallies(pocket: &[u8]) -> Result<Tallies, Refusal> {
    // SAFETY: the slice's pointer leads to as many bytes as its length says.
    let answer = unsafe { ffi::sledgewren_tallies(pocket.as_ptr(), pocket.len()) };
    // The tallies make 59,136 together, so no tallies are the word of a refusal.
    if let Ok(code) = u8::try_from(answer) {
        return Err(Refusal::from_code(code).unwrap_or_else(|| broken("tallies", answer)));
    }
    let tally = |first: u32| (answer >> first) as u16;
    Ok(Tallies { none: tally(0), draws: tally(16), wins: tally(32), losses: tally(48) })
}
