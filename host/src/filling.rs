//! Filling in steps, for a caller that shows how far it is.

use std::fmt;

use crate::entry::{self, Lent};
use crate::{Man, Refusal, Table};

/// How far filling is: one word that a caller keeps between two steps. Every word is a progress;
/// the one at the beginning is 0.
#[derive(Clone, Copy, PartialEq, Eq, Hash, Debug, Default)]
pub struct Progress(u32);

/// What a progress says, and what the next step then does.
#[derive(Clone, Copy, PartialEq, Eq, Hash, Debug)]
pub enum Stage {
    /// Going on: the next step is the one for this depth, 0 to 254.
    Going(u8),
    /// A step said done, with this greatest depth, or none where no position is decided. The next
    /// one repeats it and writes nothing.
    Done(Option<u8>),
    /// A step gave refusal 10. The next one repeats it and writes nothing.
    TooDeep,
}

impl Progress {
    /// The progress that a word stands for.
    pub fn from_word(word: u32) -> Progress {
        Progress(word)
    }

    /// The word: bits 0-7 stage, 8-23 the next step's depth, 24-31 1 + the last depth settled.
    pub fn word(self) -> u32 {
        self.0
    }

    /// What it says. A next depth above 254 counts as 254, a stage above 2 as 2.
    pub fn stage(self) -> Stage {
        let [stage, low, high, last] = self.0.to_le_bytes();
        match stage {
            0 => Stage::Going(u16::from_le_bytes([low, high]).min(254) as u8),
            1 => Stage::Done(last.checked_sub(1)),
            _ => Stage::TooDeep,
        }
    }
}

/// What a step says.
#[derive(Clone, Copy, PartialEq, Eq, Hash, Debug)]
pub enum Step {
    /// Filling goes on: so many numbers were settled.
    Settled(u32),
    /// None was settled: the greatest depth, or none where no position is decided.
    Done(Option<u8>),
}

/// A depth that a step settled.
#[derive(Clone, Copy, PartialEq, Eq, Hash, Debug)]
pub struct Settled {
    /// In plies.
    pub depth: u8,
    /// How many numbers have it.
    pub count: u32,
}

/// A table that is being filled, one depth a step. It iterates over the depths settled and ends
/// when a step says done or is refused 10; [`Filling::finish`] then gives the table at once.
///
/// ```
/// use sledgewren::{Filling, Man, Table};
///
/// let mut filling = Filling::start(Man::Queen);
/// for settled in filling.by_ref() {
///     println!("depth {}: {} numbers", settled.depth, settled.count);
/// }
/// let (table, greatest) = filling.finish()?;
/// assert_eq!(greatest, Some(20));
/// assert!(table == Table::filled(Man::Queen)?);
/// # Ok::<(), sledgewren::Refusal>(())
/// ```
#[derive(Clone, PartialEq, Eq)]
pub struct Filling {
    man: Man,
    table: Table,
    progress: Progress,
    settled: u32,
}

impl Filling {
    /// The start: every legal position's number holds 1, every other one 0.
    pub fn start(man: Man) -> Filling {
        let mut table = Table::zeroed();
        match entry::fill_start(man, table.bytes_mut()) {
            Ok(progress) => Filling { man, table, progress, settled: 0 },
            // A man has a code below 4 and a table its length, and no more is asked.
            Err(refusal) => unreachable!("starting on a table of the right length: {refusal}"),
        }
    }

    /// One step. Refusal 10; that and done are repeated by later steps, which write nothing.
    pub fn step(&mut self) -> Result<Step, Refusal> {
        let (said, progress) =
            entry::fill_step(self.man, self.progress, Lent::NONE, self.table.bytes_mut());
        self.progress = progress;
        if let Ok(Step::Settled(count)) = said {
            self.settled += count;
        }
        said
    }

    /// The steps that are left, and then the table and its greatest depth, or none where no
    /// position is decided. Refusal 10.
    pub fn finish(mut self) -> Result<(Table, Option<u8>), Refusal> {
        loop {
            if let Step::Done(greatest) = self.step()? {
                return Ok((self.table, greatest));
            }
        }
    }

    /// The ending's man.
    pub fn man(&self) -> Man {
        self.man
    }

    /// How far it is.
    pub fn progress(&self) -> Progress {
        self.progress
    }

    /// How many numbers the steps have settled.
    pub fn settled(&self) -> u32 {
        self.settled
    }

    /// How many numbers have a legal position: those settled, and those that hold 1 as yet.
    pub fn legal(&self) -> u32 {
        self.table.bytes().iter().filter(|&&byte| byte != 0).count() as u32
    }

    /// The table as it stands: the true byte wherever the depth is less than the next step's, and
    /// the start's byte elsewhere.
    pub fn table(&self) -> &Table {
        &self.table
    }
}

impl Iterator for Filling {
    type Item = Settled;

    fn next(&mut self) -> Option<Settled> {
        let Stage::Going(depth) = self.progress.stage() else { return None };
        match self.step() {
            Ok(Step::Settled(count)) => Some(Settled { depth, count }),
            _ => None,
        }
    }
}

/// `queen, next depth 3`, `queen, done` or `queen, refused 10`.
impl fmt::Debug for Filling {
    fn fmt(&self, out: &mut fmt::Formatter) -> fmt::Result {
        match self.progress.stage() {
            Stage::Going(depth) => write!(out, "{}, next depth {depth}", self.man),
            Stage::Done(_) => write!(out, "{}, done", self.man),
            Stage::TooDeep => write!(out, "{}, refused 10", self.man),
        }
    }
}
