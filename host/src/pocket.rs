//! The pocket edition of a table: won, drawn or lost, two bits a number.

use std::fmt;

use crate::{entry, Accepted, Answer, Keyed, Refusal, Table, Value};

/// Bytes of a pocket, four numbers each.
pub const POCKET_BYTES: usize = 14_784;

/// What a position is for the side to move, without a depth.
#[derive(Clone, Copy, PartialEq, Eq, Hash, Debug)]
pub enum Outcome {
    /// The side to move mates.
    Win,
    /// The side to move is mated, or is mate already.
    Loss,
    /// Neither; stalemate too.
    Draw,
}

impl From<Value> for Outcome {
    fn from(value: Value) -> Outcome {
        match value {
            Value::Win(_) => Outcome::Win,
            Value::Loss(_) => Outcome::Loss,
            Value::Draw => Outcome::Draw,
        }
    }
}

impl From<Answer> for Outcome {
    fn from(answer: Answer) -> Outcome {
        answer.value().into()
    }
}

/// `win`, `loss` or `draw`.
impl fmt::Display for Outcome {
    fn fmt(&self, out: &mut fmt::Formatter) -> fmt::Result {
        out.write_str(match self {
            Outcome::Win => "win",
            Outcome::Loss => "loss",
            Outcome::Draw => "draw",
        })
    }
}

/// How many numbers have each of the four entries; together 59,136.
#[derive(Clone, Copy, PartialEq, Eq, Hash, Debug)]
pub struct Tallies {
    /// Entry 0: the table's byte is 0.
    pub none: u16,
    /// Entry 1.
    pub draws: u16,
    /// Entry 2.
    pub wins: u16,
    /// Entry 3.
    pub losses: u16,
}

/// The bytes of one pocket, whatever they say. Number k stands in byte k / 4 at bit
/// 2 x (k mod 4): 0 for byte 0, 1 for a draw, 2 for a win, 3 for a loss.
#[derive(Clone, PartialEq, Eq)]
pub struct Pocket(Box<[u8; POCKET_BYTES]>);

/// `a pocket of 14784 bytes`: they would fill pages.
impl fmt::Debug for Pocket {
    fn fmt(&self, out: &mut fmt::Formatter) -> fmt::Result {
        write!(out, "a pocket of {POCKET_BYTES} bytes")
    }
}

impl Pocket {
    /// The pocket of a table that checking accepted. For every position of that table's ending its
    /// answer is the table's, and so the true one.
    pub fn packed(accepted: &Accepted) -> Pocket {
        Pocket::of_table(accepted.table())
    }

    /// The pocket of any table's bytes.
    pub fn of_table(table: &Table) -> Pocket {
        let mut bytes = Box::new([0; POCKET_BYTES]);
        match entry::pack(&table.bytes()[..], &mut bytes[..]) {
            Ok(()) => Pocket(bytes),
            // Both have their length, and no more is asked.
            Err(refusal) => unreachable!("packing bytes of the right lengths: {refusal}"),
        }
    }

    /// A pocket from elsewhere, as a file's bytes. Refusal 7.
    pub fn from_bytes(bytes: &[u8]) -> Result<Pocket, Refusal> {
        let bytes: Box<[u8]> = bytes.into();
        bytes.try_into().map(Pocket).map_err(|_| Refusal::TableLength)
    }

    /// A position's value, from one entry. Refusals 1 to 6, and 11 where the entry is 0.
    pub fn look_up(&self, keyed: impl Into<Keyed>) -> Result<Outcome, Refusal> {
        entry::pocket_look_up(&self.0[..], keyed)
    }

    /// How many numbers have each entry.
    pub fn tallies(&self) -> Tallies {
        match entry::tallies(&self.0[..]) {
            Ok(tallies) => tallies,
            // A pocket has its length, and no more is asked.
            Err(refusal) => unreachable!("tallies of a pocket of the right length: {refusal}"),
        }
    }

    /// The bytes.
    pub fn bytes(&self) -> &[u8; POCKET_BYTES] {
        &self.0
    }

    /// The bytes, for writing.
    pub fn bytes_mut(&mut self) -> &mut [u8; POCKET_BYTES] {
        &mut self.0
    }
}
