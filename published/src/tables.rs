//! Gaviota's depths as a table in Sledgewren's bytes.

use gaviota::Gaviota;
use second::number::{position_of, NUMBERS};
use second::position::{Man as SecondMan, Position as SecondPosition};
use sledgewren::{Keyed, Man, Table, Value};

use crate::judged::{gaviota_says, Judged};

/// The byte that stands for what Gaviota says.
fn byte(judged: Judged) -> Result<u8, String> {
    match judged {
        Judged::Illegal => Ok(0),
        Judged::Legal(Value::Draw) => Ok(1),
        Judged::Legal(Value::Win(depth) | Value::Loss(depth)) if depth <= 253 => Ok(2 + depth),
        _ => Err(format!("Gaviota's answer has no byte: {judged:?}")),
    }
}

/// A table that neither the library nor the oracle has filled: the values are Gaviota's, the
/// numbering is the oracle's, and the library has no part in it.
pub fn from_gaviota(gaviota: &Gaviota, man: Man) -> Result<Table, String> {
    let second = SecondMan::from_code(man.code()).ok_or("no such man")?;
    let mut table = Table::zeroed();
    for number in 0..NUMBERS {
        let Some(position) = position_of(second, number) else { continue };
        let SecondPosition { side, white_king, man_square, black_king, .. } = position;
        let keyed = Keyed::from([man.code(), side.code(), white_king, man_square, black_king]);
        table.bytes_mut()[number] = byte(gaviota_says(gaviota, keyed))?;
    }
    Ok(table)
}

/// How many bytes of two tables differ.
pub fn unlike(one: &[u8], other: &[u8]) -> u64 {
    one.iter().zip(other).filter(|(one, other)| one != other).count() as u64
}
