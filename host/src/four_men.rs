//! Tables of endings with two men besides the kings.

use std::fmt;

use crate::entry::{self, Lent};
use crate::{Accepted, Answer, Checked, Ending, Keyed, Marked, Refusal, Settled, Stage, Step};

/// Bytes of a table with two men, one a number.
pub const LARGE_TABLE_BYTES: usize = 3_784_704;

/// A table with two men that checking accepted, together with the accepted tables of one man that
/// its captures lead into: what the theorem about games asks. Nobody writes to them from then on,
/// and every legal position of the ending, and what captures leave of it, has an answer.
#[derive(Clone, PartialEq, Eq)]
pub struct FourMen<'a> {
    ending: Ending,
    first: &'a Accepted,
    second: &'a Accepted,
    bytes: Box<[u8]>,
}

/// Bytes that checking does not accept, with two men or a pawn, given back with what is wrong.
#[derive(Clone, PartialEq, Eq)]
pub struct NotAcceptedLarge {
    /// The refusal: 7, or 15 where a small table is another man's or the ending has not two men; or
    /// the lowest number whose byte is wrong.
    pub why: Result<u32, Refusal>,
    /// The bytes as they were.
    pub bytes: Box<[u8]>,
}

impl<'a> FourMen<'a> {
    /// The true table of an ending with two men, filled over the accepted tables of the first
    /// man's ending and of the second's; of like kinds one is given twice. It is not checked
    /// again. Refusals 10, which none of the twenty is given, and 15 where a small table is
    /// another man's or the ending has not two men.
    pub fn filled(
        ending: Ending,
        first: &'a Accepted,
        second: &'a Accepted,
    ) -> Result<FourMen<'a>, Refusal> {
        let mut four = FourMen::over(ending, first, second, zeros())?;
        entry::fill_back(ending, lent(first, second), &mut four.bytes)?;
        Ok(four)
    }

    /// The same in steps, telling each depth as it is settled; a depth may have none.
    pub fn filled_with_progress(
        ending: Ending,
        first: &'a Accepted,
        second: &'a Accepted,
        mut tell: impl FnMut(Settled),
    ) -> Result<FourMen<'a>, Refusal> {
        let mut four = FourMen::over(ending, first, second, zeros())?;
        let mut progress = entry::fill_start(ending, &mut four.bytes)?;
        while let Stage::Going(depth) = progress.stage() {
            let (said, next) =
                entry::fill_step(ending, progress, lent(first, second), &mut four.bytes);
            if let Step::Settled(count) = said? {
                tell(Settled { depth, count });
            }
            progress = next;
        }
        Ok(four)
    }

    /// Bytes from elsewhere as the ending's table, if checking accepts them.
    pub fn accept(
        ending: Ending,
        first: &'a Accepted,
        second: &'a Accepted,
        bytes: Box<[u8]>,
    ) -> Result<FourMen<'a>, NotAcceptedLarge> {
        if !fits(ending, first, second) {
            return Err(NotAcceptedLarge { why: Err(Refusal::NotInSet), bytes });
        }
        match entry::check(ending, lent(first, second), &bytes) {
            Ok(Checked::Accepted) => Ok(FourMen { ending, first, second, bytes }),
            Ok(Checked::Wrong(number)) => Err(NotAcceptedLarge { why: Ok(number), bytes }),
            Err(refusal) => Err(NotAcceptedLarge { why: Err(refusal), bytes }),
        }
    }

    fn over(
        ending: Ending,
        first: &'a Accepted,
        second: &'a Accepted,
        bytes: Box<[u8]>,
    ) -> Result<FourMen<'a>, Refusal> {
        match fits(ending, first, second) {
            true => Ok(FourMen { ending, first, second, bytes }),
            false => Err(Refusal::NotInSet),
        }
    }

    /// The ending.
    pub fn ending(&self) -> Ending {
        self.ending
    }

    /// The table's bytes.
    pub fn bytes(&self) -> &[u8] {
        &self.bytes
    }

    /// The true value and depth of a position, and a move: of the ending, or of one of its men
    /// left alone, who is looked up in his own table. Refusals 1 to 6, and 15 for other men.
    pub fn look_up(&self, keyed: impl Into<Keyed>) -> Result<Answer, Refusal> {
        self.look_up_at(keyed, 0).map(|marked| marked.answer)
    }

    /// The same with the plies since the last capture, and whether a win or a loss comes before a
    /// fifty-move claim; 19 for more than 99 plies.
    pub fn look_up_at(&self, keyed: impl Into<Keyed>, plies: u32) -> Result<Marked, Refusal> {
        let keyed = keyed.into();
        let small = [self.first, self.second];
        match Ending::of(keyed) {
            Some(ending) if ending == self.ending => {
                entry::look_up_at(keyed, plies, lent(self.first, self.second), &self.bytes)
            }
            Some(ending) => match small.iter().find(|table| ending.only() == Some(table.man())) {
                Some(table) => table.table().look_up_at(keyed, plies),
                None => Err(Refusal::NotInSet),
            },
            None => Err(Refusal::BadMan),
        }
    }
}

fn zeros() -> Box<[u8]> {
    vec![0; LARGE_TABLE_BYTES].into()
}

fn lent<'a>(first: &'a Accepted, second: &'a Accepted) -> Lent<'a> {
    Lent { first: first.table().bytes(), second: second.table().bytes() }
}

/// The small tables are those of the ending's two men.
fn fits(ending: Ending, first: &Accepted, second: &Accepted) -> bool {
    ending.first() == Some(first.man()) && ending.second() == Some(second.man())
}

/// `KQKR, a table of 3784704 bytes`: they would fill pages.
impl fmt::Debug for FourMen<'_> {
    fn fmt(&self, out: &mut fmt::Formatter) -> fmt::Result {
        write!(out, "{}, a table of {} bytes", self.ending, self.bytes.len())
    }
}

/// Without the bytes.
impl fmt::Debug for NotAcceptedLarge {
    fn fmt(&self, out: &mut fmt::Formatter) -> fmt::Result {
        write!(out, "{self}")
    }
}

impl fmt::Display for NotAcceptedLarge {
    fn fmt(&self, out: &mut fmt::Formatter) -> fmt::Result {
        match self.why {
            Ok(number) => write!(out, "not the ending's table: number {number} is wrong"),
            Err(refusal) => write!(out, "{refusal}"),
        }
    }
}

impl std::error::Error for NotAcceptedLarge {}
