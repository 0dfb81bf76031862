//! 01's run as 02 has changed it, and 01's positions to keep by the bench, each with the answer it must have.

use crate::desk::{answer_text, read_position};
use crate::fill_back;
use crate::number::{back, number, NUMBERS};
use crate::position::{Keyed, Refused};
use crate::rules::{legal_position, moves};
use crate::table::{check, look_up, Checked};

pub const RUN_INPUT: &str = "\
Q w b3 h2 a1
Q b b3 b2 a1
Q b e5 b3 a1
Q b h8 b2 a1
Q w b3 b2 a1
P w b3 h2 a1
Q w b3 h2
Q # 0204962
";

pub const RUN_OUTPUT: &str = "\
win 1 h2a2
loss 0
draw
draw a1xb2
refused 6
refused 1
refused 12
w a1 b1 h8
";

/// What is asked; positions are written as the desk reads them.
pub enum Ask {
    Number(&'static str),
    NumberBack(u64),
    HighestUsed,
    LookUp(&'static str),
    MoveCount(&'static str),
    Legal(&'static str),
    TableOf(usize),
    /// A man's table: the man it is checked for, the man it is filled for, and bytes altered in it.
    Checked(u8, u8, &'static [(usize, u8)]),
}

pub struct Case {
    pub says: &'static str,
    pub ask: Ask,
    pub answer: &'static str,
}

const fn case(says: &'static str, ask: Ask, answer: &'static str) -> Case {
    Case { says, ask, answer }
}

/// "Positions to keep by the bench", in 01's order, and then tables to check.
pub static CASES: [Case; 28] = [
    case("White Ka1 Qb1, Black Kh8, White to move", Ask::Number("Q w a1 b1 h8"), "number 2049"),
    case("White Ka1 Qa2, Black Kh8, White to move", Ask::Number("Q w a1 a2 h8"), "number 2049"),
    case("White Kh8 Qh7, Black Ka1, White to move", Ask::Number("Q w h8 h7 a1"), "number 2049"),
    case("White Ka1 Qh8, Black Kc1, White to move", Ask::Number("Q w a1 h8 c1"), "number 63"),
    case("Number 2056", Ask::NumberBack(2056), "refused 9"),
    case("Highest used number", Ask::HighestUsed, "number 59127"),
    case("Number 59,127", Ask::NumberBack(59127), "used"),
    case("Number 59,128", Ask::NumberBack(59128), "refused 9"),
    case("Number 59,136", Ask::NumberBack(59136), "refused 8"),
    case("Kings on a1 and b2", Ask::Number("Q w a1 h8 b2"), "refused 5"),
    case("Rook on a1 with its king", Ask::Number("R w a1 a1 h8"), "refused 4"),
    case("Ka3 Rh1 against Ka1, Black to move", Ask::LookUp("R b a3 h1 a1"), "loss 0"),
    case("Kb3 Qb2 against Ka1, Black to move", Ask::LookUp("Q b b3 b2 a1"), "loss 0"),
    case("Ke5 Qb3 against Ka1, Black to move", Ask::LookUp("Q b e5 b3 a1"), "draw"),
    case("Ka1 Ra5 against Ke5, Black to move", Ask::MoveCount("R b a1 a5 e5"), "6 moves"),
    case("Kc1 Ra1 against Ke1, White to move", Ask::Legal("R w c1 a1 e1"), "legal"),
    case("Table of 59,135 bytes", Ask::TableOf(NUMBERS - 1), "refused 7"),
    case("Table of 59,137 bytes", Ask::TableOf(NUMBERS + 1), "refused 7"),
    case("Queen's table", Ask::Checked(0, 0, &[]), "accepted"),
    case("Queen's table, checked for a rook", Ask::Checked(1, 0, &[]), "wrong at 9"),
    case("Queen's table, 1 at 59,135", Ask::Checked(0, 0, &[(59135, 1)]), "wrong at 59135"),
    case("And 1 at 2,049", Ask::Checked(0, 0, &[(59135, 1), (2049, 1)]), "wrong at 2049"),
    case("Rook's table", Ask::Checked(1, 1, &[]), "accepted"),
    case("Rook's table, 255 at 31,617", Ask::Checked(1, 1, &[(31617, 255)]), "wrong at 31617"),
    case("Bishop's table", Ask::Checked(2, 2, &[]), "accepted"),
    case("Bishop's table, 2 at 31,617", Ask::Checked(2, 2, &[(31617, 2)]), "wrong at 2049"),
    case("Knight's table", Ask::Checked(3, 3, &[]), "accepted"),
    case("Knight's table, 0 at 2,049", Ask::Checked(3, 3, &[(2049, 0)]), "wrong at 2049"),
];

fn number_answer(line: &str) -> Result<String, Refused> {
    Ok(format!("number {}", number(&read_position(line.as_bytes())?)?))
}

fn back_answer(number: u64) -> Result<String, Refused> {
    back(0, number).map(|_| "used".to_string())
}

fn highest_used() -> Result<String, Refused> {
    let highest = (0..NUMBERS as u64).rev().find(|&number| back(0, number).is_ok());
    Ok(highest.map_or("none".to_string(), |number| format!("number {number}")))
}

fn look_up_answer(line: &str) -> Result<String, Refused> {
    let keyed = read_position(line.as_bytes())?;
    let mut table = vec![0; NUMBERS];
    fill_back::fill(keyed.placed()?.man.code(), &mut table)?;
    Ok(answer_text(&look_up(&table, &keyed)))
}

fn move_count(line: &str) -> Result<String, Refused> {
    let position = legal_position(&read_position(line.as_bytes())?)?;
    Ok(format!("{} moves", moves(&position).as_slice().len()))
}

fn legality(line: &str) -> Result<String, Refused> {
    legal_position(&read_position(line.as_bytes())?).map(|_| "legal".to_string())
}

/// Filling, checking and looking up must all refuse a table of the wrong length.
fn table_answer(length: usize) -> Result<String, Refused> {
    let mut table = vec![0; length];
    let keyed = Keyed::of_one([0, 0, 1], 0, [0, 63]);
    let answers = [
        fill_back::fill(0, &mut table).err(),
        check(0, &table).err(),
        look_up(&table, &keyed).err(),
    ];
    match answers {
        [Some(first), Some(second), Some(third)] if first == second && second == third => {
            Err(first)
        }
        _ => Ok("answers differ".to_string()),
    }
}

fn checked_answer(man: u8, of: u8, altered: &[(usize, u8)]) -> Result<String, Refused> {
    let mut table = vec![0; NUMBERS];
    fill_back::fill(of, &mut table)?;
    for &(number, byte) in altered {
        table[number] = byte;
    }
    Ok(match check(man, &table)? {
        Checked::Accepted => "accepted".to_string(),
        Checked::Wrong(number) => format!("wrong at {number}"),
    })
}

/// The program's own answer to a case.
pub fn answer(ask: &Ask) -> String {
    let answer = match *ask {
        Ask::Number(line) => number_answer(line),
        Ask::NumberBack(number) => back_answer(number),
        Ask::HighestUsed => highest_used(),
        Ask::LookUp(line) => look_up_answer(line),
        Ask::MoveCount(line) => move_count(line),
        Ask::Legal(line) => legality(line),
        Ask::TableOf(length) => table_answer(length),
        Ask::Checked(man, of, altered) => checked_answer(man, of, altered),
    };
    answer.unwrap_or_else(|Refused(number)| format!("refused {number}"))
}
