//! Tables.

use std::fmt;

use crate::entry::{self, Lent};
use crate::{Answer, Checked, Keyed, Man, Marked, Position, Refusal};

/// Bytes of a table, one a number.
pub const TABLE_BYTES: usize = 59_136;

/// The bytes of one table, whatever they say. Byte 0: unused or illegal; 1: draw; 2 + n: depth n.
#[derive(Clone, PartialEq, Eq)]
pub struct Table(Box<[u8; TABLE_BYTES]>);

impl Table {
    /// A table of zeros, to be filled or written.
    pub fn zeroed() -> Table {
        Table(Box::new([0; TABLE_BYTES]))
    }

    /// The true table of an ending. Refusal 10, which none of the four endings is given.
    pub fn filled(man: Man) -> Result<Table, Refusal> {
        let mut table = Table::zeroed();
        table.fill(man)?;
        Ok(table)
    }

    /// A table from elsewhere, as a file's bytes. Refusal 7.
    pub fn from_bytes(bytes: &[u8]) -> Result<Table, Refusal> {
        let bytes: Box<[u8]> = bytes.into();
        bytes.try_into().map(Table).map_err(|_| Refusal::TableLength)
    }

    /// Writes the true table over these bytes and gives its greatest depth, or none if no
    /// position is decided. Refusal 10.
    pub fn fill(&mut self, man: Man) -> Result<Option<u8>, Refusal> {
        entry::fill_back(man, Lent::NONE, &mut self.0[..])
    }

    /// Is this the true table of an ending?
    pub fn check(&self, man: Man) -> Checked {
        match entry::check(man, Lent::NONE, &self.0[..]) {
            Ok(checked) => checked,
            // A man has a code below 4 and a table its length, and no more is asked.
            Err(refusal) => unreachable!("checking a table of the right length: {refusal}"),
        }
    }

    /// The table as one that checking accepts for an ending.
    pub fn accept(self, man: Man) -> Result<Accepted, NotAccepted> {
        match self.check(man) {
            Checked::Accepted => Ok(Accepted { man, table: self }),
            Checked::Wrong(number) => Err(NotAccepted { man, number, table: self }),
        }
    }

    /// A position's value, depth and move. Refusals 1 to 6 and 11.
    pub fn look_up(&self, keyed: impl Into<Keyed>) -> Result<Answer, Refusal> {
        entry::look_up(keyed, Lent::NONE, &self.0[..])
    }

    /// The same with the plies since the last capture, and whether a win or a loss comes before a
    /// fifty-move claim. Refusals 1 to 6, 11, and 19 for more than 99 plies.
    pub fn look_up_at(&self, keyed: impl Into<Keyed>, plies: u32) -> Result<Marked, Refusal> {
        entry::look_up_at(keyed, plies, Lent::NONE, &self.0[..])
    }

    /// The bytes.
    pub fn bytes(&self) -> &[u8; TABLE_BYTES] {
        &self.0
    }

    /// The bytes, for writing.
    pub fn bytes_mut(&mut self) -> &mut [u8; TABLE_BYTES] {
        &mut self.0
    }
}

/// `a table of 59136 bytes`: they would fill pages.
impl fmt::Debug for Table {
    fn fmt(&self, out: &mut fmt::Formatter) -> fmt::Result {
        write!(out, "a table of {TABLE_BYTES} bytes")
    }
}

/// A table that checking does not accept, given back with what is wrong.
#[derive(Clone, PartialEq, Eq, Debug)]
pub struct NotAccepted {
    /// The man whose ending was asked for.
    pub man: Man,
    /// The lowest number whose byte is wrong.
    pub number: u32,
    /// The table as it was.
    pub table: Table,
}

impl fmt::Display for NotAccepted {
    fn fmt(&self, out: &mut fmt::Formatter) -> fmt::Result {
        write!(out, "not the {}'s table: number {} is wrong", self.man, self.number)
    }
}

impl std::error::Error for NotAccepted {}

/// A table that checking accepted for an ending and that nobody writes to from then on: what the
/// theorem about games asks of the table. Every legal position of the ending has an answer.
#[derive(Clone, PartialEq, Eq, Debug)]
pub struct Accepted {
    man: Man,
    table: Table,
}

impl Accepted {
    /// The true table of an ending, filled and then checked. Refusal 10, which none of the four
    /// endings is given.
    pub fn filled(man: Man) -> Result<Accepted, Refusal> {
        match Table::filled(man)?.accept(man) {
            Ok(accepted) => Ok(accepted),
            // What filling writes is the one table that checking accepts.
            Err(wrong) => unreachable!("checking a filled table: {wrong}"),
        }
    }

    /// The ending's man.
    pub fn man(&self) -> Man {
        self.man
    }

    /// The table, for reading.
    pub fn table(&self) -> &Table {
        &self.table
    }

    /// The true value and depth of a position of the ending, and a move; the man is of either
    /// side. Refusals 4, 5, 6, and 15 where the man is another one.
    pub fn look_up(&self, position: Position) -> Result<Answer, Refusal> {
        if position.man != self.man {
            return Err(Refusal::NotInSet);
        }
        self.table.look_up(position)
    }

    /// The same with the plies since the last capture, and whether a win or a loss comes before a
    /// fifty-move claim; 19 for more than 99 plies.
    pub fn look_up_at(&self, position: Position, plies: u32) -> Result<Marked, Refusal> {
        if position.man != self.man {
            return Err(Refusal::NotInSet);
        }
        self.table.look_up_at(position, plies)
    }
}
