//! The desk program: position lines and number lines, byte for byte.

use std::io::{Read, Write};

use crate::board;
use crate::check_digits::read_typed;
use crate::failure::{Done, Failure};
use crate::fill_back;
use crate::lines::for_each_line;
use crate::number::{back, NUMBERS};
use crate::position::{Keyed, Man, Position, Refused, Side, MEN};
use crate::rule::Value;
use crate::rules::{legal_position, move_name};
use crate::table::{look_up, Answer};

/// A number line's bytes; a position line has 12.
const NUMBER_LINE: usize = 11;

/// Stands for a byte that names no man, side or square; refused as 1, 2 or 3.
const WRONG: u8 = u8::MAX;

/// `Q R B N`: White's man, and the man of a number line.
fn man_code(byte: u8) -> u8 {
    Man::from_letter(byte).map_or(WRONG, Man::code)
}

/// Kind and colour: "on a position line `q r b n` mean Black's man".
fn kind_and_colour(byte: u8) -> [u8; 2] {
    if byte.is_ascii_lowercase() {
        [man_code(byte.to_ascii_uppercase()), Side::Black.code()]
    } else {
        [man_code(byte), Side::White.code()]
    }
}

fn side_code(byte: u8) -> u8 {
    match byte {
        b'w' => 0,
        b'b' => 1,
        _ => WRONG,
    }
}

fn square(file: u8, rank: u8) -> u8 {
    match (file, rank) {
        (b'a'..=b'h', b'1'..=b'8') => 8 * (rank - b'1') + (file - b'a'),
        _ => WRONG,
    }
}

/// Spaces stand at these places and at no other.
fn spaces_right(line: &[u8], places: &[usize]) -> bool {
    line.iter().enumerate().all(|(place, &byte)| (byte == b' ') == places.contains(&place))
}

/// A position line, 12 bytes; refused 12 if a space is out of place or missing.
pub fn read_position(line: &[u8]) -> Result<Keyed, Refused> {
    let &[man, _, side, _, kf, kr, _, mf, mr, _, bf, br] = line else {
        return Err(Refused(12));
    };
    if !spaces_right(line, &[1, 3, 6, 9]) {
        return Err(Refused(12));
    }
    let [kind, colour] = kind_and_colour(man);
    let kings = [square(kf, kr), square(bf, br)];
    Ok(Keyed::of_one([kind, colour, square(mf, mr)], side_code(side), kings))
}

/// A number line, 11 bytes: the man's code and the number. Shape is asked first, then the
/// check.
fn read_number(line: &[u8]) -> Result<(u8, u64), Refused> {
    let &[man, _, b'#', _, ref digits @ ..] = line else {
        return Err(Refused(12));
    };
    if !spaces_right(line, &[1, 3]) {
        return Err(Refused(12));
    }
    Ok((man_code(man), read_typed(digits)?))
}

/// The tables filled so far. 01 has the desk hold one and refill on a change of man;
/// keeping all four changes no byte of the answers.
struct Tables([Vec<u8>; 4]);

impl Tables {
    fn table(&mut self, man: Man) -> Result<&[u8], Refused> {
        let table = &mut self.0[man.code() as usize];
        if table.is_empty() {
            let mut fresh = vec![0; NUMBERS];
            fill_back::fill(man.code(), &mut fresh)?;
            *table = fresh;
        }
        Ok(table)
    }
}

/// A value in the desk's words.
pub fn value_text(value: Value) -> String {
    match value {
        Value::Win(depth) => format!("win {depth}"),
        Value::Loss(depth) => format!("loss {depth}"),
        Value::Draw => "draw".to_string(),
    }
}

/// An answer in the desk's words.
pub fn answer_text(answer: &Result<Answer, Refused>) -> String {
    let answer = match answer {
        Err(Refused(number)) => return format!("refused {number}"),
        Ok(answer) => answer,
    };
    let value = value_text(answer.value);
    match answer.best {
        Some(chosen) => format!("{value} {}", move_name(chosen)),
        None => value,
    }
}

fn position_text(position: &Position) -> String {
    let name = board::name;
    let (white_king, man) = (name(position.white_king), name(position.man_square));
    format!("{} {white_king} {man} {}", position.side.letter(), name(position.black_king))
}

fn position_answer(line: &[u8], tables: &mut Tables) -> Result<Answer, Refused> {
    let keyed = read_position(line)?;
    let position = legal_position(&keyed)?;
    look_up(tables.table(position.man)?, &keyed)
}

fn number_answer(line: &[u8]) -> Result<Position, Refused> {
    let (man, number) = read_number(line)?;
    back(man, number)
}

fn line_answer(line: &[u8], tables: &mut Tables) -> String {
    if line.len() == NUMBER_LINE {
        return match number_answer(line) {
            Ok(position) => position_text(&position),
            Err(Refused(number)) => format!("refused {number}"),
        };
    }
    answer_text(&position_answer(line, tables))
}

/// Answers every line of the input.
pub fn run(input: impl Read, output: &mut impl Write) -> Done {
    let mut tables = Tables(MEN.map(|_| Vec::new()));
    // 13 bytes already have the wrong length, so no more of a line need be kept.
    for_each_line(input, output, 13, |line, output| {
        writeln!(output, "{}", line_answer(line, &mut tables)).map_err(Failure::from)
    })
}
