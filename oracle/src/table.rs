//! Tables: their size, the byte required at a number, checking, looking up.

use crate::number::{normal_map, number_of, position_of, NUMBERS};
use crate::position::{Keyed, Man, Position, Refused};
use crate::rule::{value, Successors, Value, DRAW, UNUSED};
use crate::rules::{in_check, legal, legal_position, moves, play, Move};
use crate::symmetry::{mapped_back, position_mapped};

/// One byte a number.
pub type Table = [u8; NUMBERS];

/// Refusal 7: "table not 59,136 bytes".
pub fn sized(bytes: &[u8]) -> Result<&Table, Refused> {
    bytes.try_into().map_err(|_| Refused(7))
}

/// The same of a table lent for writing.
pub fn sized_mut(bytes: &mut [u8]) -> Result<&mut Table, Refused> {
    bytes.try_into().map_err(|_| Refused(7))
}

/// The byte after a move. "Taking the man leaves bare kings: a draw."
fn successor_byte(table: &Table, position: &Position, chosen: Move) -> u8 {
    match play(position, chosen) {
        Some(next) => table[number_of(&next)],
        None => DRAW,
    }
}

/// What a legal position's successors require of its byte.
fn required_of(table: &Table, position: &Position) -> Option<u8> {
    let mut successors = Successors::none();
    for &chosen in moves(position).as_slice() {
        successors.add(successor_byte(table, position, chosen));
    }
    successors.required(|| in_check(position))
}

/// The byte required at a number, or none where every byte is wrong.
pub fn required(table: &Table, man: Man, number: usize) -> Option<u8> {
    match position_of(man, number) {
        Some(position) if legal(&position) => required_of(table, &position),
        _ => Some(UNUSED),
    }
}

#[derive(Clone, Copy, PartialEq, Eq, Debug)]
pub enum Checked {
    Accepted,
    /// The lowest wrong number.
    Wrong(usize),
}

/// Checking: refusals 1 and 7.
pub fn check(man: u8, bytes: &[u8]) -> Result<Checked, Refused> {
    let man = Man::from_code(man).ok_or(Refused(1))?;
    let table = sized(bytes)?;
    let wrong = (0..NUMBERS).find(|&number| required(table, man, number) != Some(table[number]));
    Ok(wrong.map_or(Checked::Accepted, Checked::Wrong))
}

/// Look-up's answer; the move is none for mate and stalemate.
#[derive(Clone, Copy, PartialEq, Eq, Debug)]
pub struct Answer {
    pub value: Value,
    pub best: Option<Move>,
}

/// The value a successor must have for its move to be given.
pub fn wanted(held: Value) -> Option<Value> {
    match held {
        Value::Win(depth) => depth.checked_sub(1).map(Value::Loss),
        Value::Loss(depth) => depth.checked_sub(1).map(Value::Win),
        Value::Draw => Some(Value::Draw),
    }
}

/// "Break ties on the normalised board, not on the board as keyed, and carry the move back": the
/// first move in list order there that leads to the value wanted.
fn first_leading(table: &Table, position: &Position, after: Value) -> Option<Move> {
    let map = normal_map(position);
    let normal = position_mapped(map, position);
    let list = moves(&normal);
    let found = list
        .as_slice()
        .iter()
        .find(|&&chosen| value(successor_byte(table, &normal, chosen)) == after);
    found.map(|&Move { from, to, takes }| {
        let (from, to) = (mapped_back(map, from), mapped_back(map, to));
        Move { from, to, takes }
    })
}

/// Looking up: refusals 1 to 7 and 11.
pub fn look_up(bytes: &[u8], keyed: &Keyed) -> Result<Answer, Refused> {
    let position = legal_position(keyed)?;
    let table = sized(bytes)?;
    let byte = table[number_of(&position)];
    if required_of(table, &position) != Some(byte) {
        return Err(Refused(11));
    }
    let held = value(byte);
    let best = wanted(held).and_then(|after| first_leading(table, &position, after));
    Ok(Answer { value: held, best })
}
