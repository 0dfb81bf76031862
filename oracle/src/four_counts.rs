//! The true tables of two men, and what they count.

use crate::ending::Ending;
use crate::fill::Filled;
use crate::fill_back;
use crate::four_fill::FillOfTwo;
use crate::four_number::NUMBERS_OF_TWO;
use crate::four_table::Small;
use crate::number::NUMBERS;
use crate::position::{Side, MEN};
use crate::rule::{value, Value, DRAW, MATED, UNUSED};
use crate::table::Table;

/// The four true tables of one man.
pub struct SmallTables([Box<Table>; 4]);

impl SmallTables {
    pub fn new() -> SmallTables {
        SmallTables(MEN.map(|man| {
            let mut table = Box::new([UNUSED; NUMBERS]);
            // A true depth above 253 there is not: the self test goes over all four tables.
            let _ = fill_back::fill(man.code(), &mut table[..]);
            table
        }))
    }

    /// The two that an ending is lent, by the first man's kind and the second's.
    pub fn lent(&self, ending: Ending) -> Small<'_> {
        ending.codes().map(|code| &*self.0[code as usize & 3])
    }

    pub fn bytes(&self, ending: Ending) -> [&[u8]; 2] {
        self.lent(ending).map(|table| &table[..])
    }
}

impl Default for SmallTables {
    fn default() -> SmallTables {
        SmallTables::new()
    }
}

/// The true table of an ending by one of the fills.
pub fn filled(ending: Ending, small: &SmallTables, fill: FillOfTwo) -> (Filled, Vec<u8>) {
    let mut large = vec![UNUSED; NUMBERS_OF_TWO];
    let greatest = fill(ending.codes(), ending.one_each, &mut large, small.bytes(ending));
    (greatest, large)
}

/// How many numbers hold a win, a draw and a loss of the side to move, and how many hold 0.
#[derive(Clone, Copy, PartialEq, Eq, Debug, Default)]
pub struct Tally {
    pub wins: usize,
    pub draws: usize,
    pub losses: usize,
    pub unused: usize,
}

impl Tally {
    pub fn of(bytes: &[u8]) -> Tally {
        let mut tally = Tally::default();
        for &byte in bytes {
            match value(byte) {
                Value::Win(_) => tally.wins += 1,
                Value::Loss(_) => tally.losses += 1,
                Value::Draw if byte == DRAW => tally.draws += 1,
                Value::Draw => tally.unused += 1,
            }
        }
        tally
    }
}

/// The greatest depth in plies at which one side mates and one side has the move.
pub fn greatest_of(large: &[u8], winner: Side, to_move: Side) -> Option<u8> {
    let half = large.len() / 2;
    let bytes = large.iter().skip(to_move.code() as usize * half).take(half);
    let odd = u8::from(winner == to_move);
    bytes.map(|&byte| byte.wrapping_sub(MATED)).filter(|&n| n < 254 && n % 2 == odd).max()
}
