//! The table of king and pawn, and the four tables that promotions lead into.

use std::fmt;

use crate::entry::{self, Lent};
use crate::{Accepted, Answer, Checked, Ending, Keyed, Man, Marked, NotAcceptedLarge, Refusal};
use crate::{Settled, Stage, Step, TABLE_BYTES};

/// Bytes of king and pawn's table, one a number.
pub const PAWN_TABLE_BYTES: usize = 196_608;

/// Bytes of the four pieces' tables in one run.
pub const FOUR_TABLES_BYTES: usize = 4 * TABLE_BYTES;

/// The four accepted tables of one piece in one run: the queen's, the rook's, the bishop's and the
/// knight's. Nobody writes to them from then on.
#[derive(Clone, PartialEq, Eq)]
pub struct FourTables(Box<[u8]>);

impl FourTables {
    /// The true tables, each filled and then checked. Refusal 10, which none of the four is given.
    pub fn filled() -> Result<FourTables, Refusal> {
        let mut run = Vec::with_capacity(FOUR_TABLES_BYTES);
        for man in Man::ALL {
            run.extend_from_slice(Accepted::filled(man)?.table().bytes());
        }
        Ok(FourTables(run.into()))
    }

    /// Accepted tables as one run, in the order of [`Man::ALL`]. Refusal 15 in any other.
    pub fn of(tables: [&Accepted; 4]) -> Result<FourTables, Refusal> {
        if tables.map(Accepted::man) != Man::ALL {
            return Err(Refusal::NotInSet);
        }
        Ok(FourTables(tables.map(|table| &table.table().bytes()[..]).concat().into()))
    }

    /// All of them.
    pub fn bytes(&self) -> &[u8] {
        &self.0
    }

    /// One piece's.
    pub fn table(&self, man: Man) -> &[u8] {
        &self.0[man.code() as usize * TABLE_BYTES..][..TABLE_BYTES]
    }

    /// As a pawn's ending is lent them.
    pub fn lent(&self) -> Lent<'_> {
        Lent { first: &self.0, second: &[] }
    }
}

/// King and pawn's table that checking accepted, together with the accepted tables of one piece
/// that promotions lead into: what the theorem about games asks. Nobody writes to them from then
/// on, and every legal position of the ending, and what promotions leave of it, has an answer.
///
/// ```
/// use sledgewren::{FourTables, Keyed, KingAndPawn, Side};
///
/// let four = FourTables::filled()?;
/// let table = KingAndPawn::filled(&four)?;
/// let [king, pawn, other] = ["c2", "a7", "a1"].map(|square| square.parse().unwrap());
/// let position = Keyed::pawn(Side::White, Side::White, king, pawn, other);
/// let answer = table.look_up(position)?;
/// assert_eq!(answer.to_string(), "win 1 a7a8q");
/// let mate = position.play(answer.best().unwrap())?.unwrap();
/// assert_eq!(table.look_up(mate)?.to_string(), "loss 0");
/// # Ok::<(), sledgewren::Refusal>(())
/// ```
#[derive(Clone, PartialEq, Eq)]
pub struct KingAndPawn<'a> {
    four: &'a FourTables,
    bytes: Box<[u8]>,
}

impl<'a> KingAndPawn<'a> {
    /// The true table, filled over the four. It is not checked again. Refusal 10, which it is not
    /// given.
    pub fn filled(four: &'a FourTables) -> Result<KingAndPawn<'a>, Refusal> {
        let mut bytes = zeros();
        entry::fill(Ending::PAWN, four.lent(), &mut bytes)?;
        Ok(KingAndPawn { four, bytes })
    }

    /// The same in steps, telling each depth as it is settled; a depth may have none.
    pub fn filled_with_progress(
        four: &'a FourTables,
        mut tell: impl FnMut(Settled),
    ) -> Result<KingAndPawn<'a>, Refusal> {
        let mut bytes = zeros();
        let mut progress = entry::fill_start(Ending::PAWN, &mut bytes)?;
        while let Stage::Going(depth) = progress.stage() {
            let (said, next) = entry::fill_step(Ending::PAWN, progress, four.lent(), &mut bytes);
            if let Step::Settled(count) = said? {
                tell(Settled { depth, count });
            }
            progress = next;
        }
        Ok(KingAndPawn { four, bytes })
    }

    /// Bytes from elsewhere as the table, if checking accepts them.
    pub fn accept(
        four: &'a FourTables,
        bytes: Box<[u8]>,
    ) -> Result<KingAndPawn<'a>, NotAcceptedLarge> {
        match entry::check(Ending::PAWN, four.lent(), &bytes) {
            Ok(Checked::Accepted) => Ok(KingAndPawn { four, bytes }),
            Ok(Checked::Wrong(number)) => Err(NotAcceptedLarge { why: Ok(number), bytes }),
            Err(refusal) => Err(NotAcceptedLarge { why: Err(refusal), bytes }),
        }
    }

    /// The table's bytes.
    pub fn bytes(&self) -> &[u8] {
        &self.bytes
    }

    /// The true value and depth of a position, and a move: of king and pawn, or of the piece that
    /// the pawn became, which is looked up in its own table. Refusals 1 to 6 and 18, and 15 for two
    /// men.
    pub fn look_up(&self, keyed: impl Into<Keyed>) -> Result<Answer, Refusal> {
        self.look_up_at(keyed, 0).map(|marked| marked.answer)
    }

    /// The same with the plies since the last capture, and whether a win or a loss of a piece comes
    /// before a fifty-move claim, which is not told with a pawn; 19 for more than 99 plies.
    pub fn look_up_at(&self, keyed: impl Into<Keyed>, plies: u32) -> Result<Marked, Refusal> {
        let keyed = keyed.into();
        match Ending::of(keyed) {
            Some(Ending::PAWN) => entry::look_up_at(keyed, plies, self.four.lent(), &self.bytes),
            Some(ending) => match ending.only() {
                Some(man) => entry::look_up_at(keyed, plies, Lent::NONE, self.four.table(man)),
                None => Err(Refusal::NotInSet),
            },
            None => Err(Refusal::BadMan),
        }
    }
}

fn zeros() -> Box<[u8]> {
    vec![0; PAWN_TABLE_BYTES].into()
}

/// `four tables of 59136 bytes`: they would fill pages.
impl fmt::Debug for FourTables {
    fn fmt(&self, out: &mut fmt::Formatter) -> fmt::Result {
        write!(out, "four tables of {TABLE_BYTES} bytes")
    }
}

/// `KPK, a table of 196608 bytes`.
impl fmt::Debug for KingAndPawn<'_> {
    fn fmt(&self, out: &mut fmt::Formatter) -> fmt::Result {
        write!(out, "{}, a table of {PAWN_TABLE_BYTES} bytes", Ending::PAWN)
    }
}
