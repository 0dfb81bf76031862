//! Look-up with the plies since the last capture: marks, and refusal 19 after all others.

mod common;

use common::position;
use sledgewren::entry::{self, Lent};
use sledgewren::{Man, Refusal, Table, Value};

#[test]
fn marked_up_to_a_hundred() {
    let table = Table::filled(Man::Rook).unwrap();
    let position = position("R w e3 h1 e5");
    let answer = table.look_up(position).unwrap();
    assert_eq!(answer.value(), Value::Win(23));
    for plies in 0..100 {
        let marked = table.look_up_at(position, plies).unwrap();
        assert_eq!(marked.answer, answer, "at {plies}");
        assert_eq!(marked.within_fifty, plies + 23 <= 100, "at {plies}");
    }
}

#[test]
fn black_to_move_and_blacks_man() {
    let table = Table::filled(Man::Queen).unwrap();
    for keyed in ["Q b b3 b2 a1", "q w a1 b2 b3"] {
        let marked = table.look_up_at(position(keyed), 99).unwrap();
        assert_eq!(marked.answer.value(), Value::Loss(0), "{keyed}");
        assert!(marked.within_fifty, "{keyed}");
    }
}

#[test]
fn never_on_a_draw() {
    let table = Table::filled(Man::Queen).unwrap();
    for keyed in ["Q b e5 b3 a1", "Q b h8 b2 a1"] {
        let marked = table.look_up_at(position(keyed), 0).unwrap();
        assert_eq!(marked.answer.value(), Value::Draw, "{keyed}");
        assert!(!marked.within_fifty, "{keyed}");
    }
}

#[test]
fn nineteen_after_all_others() {
    let mut table = Table::filled(Man::Queen).unwrap();
    let keyed = position("Q w b3 h2 a1");
    for plies in [100, 101, 255, 256, u32::MAX] {
        assert_eq!(table.look_up_at(keyed, plies), Err(Refusal::TooManyQuiet));
        assert_eq!(entry::look_up_at(keyed, plies, Lent::NONE, &[]), Err(Refusal::TableLength));
        let shared = position("Q w b3 b3 a1");
        assert_eq!(table.look_up_at(shared, plies), Err(Refusal::SharedSquare));
    }
    table.bytes_mut()[keyed.number().unwrap() as usize] = 1;
    assert_eq!(table.look_up_at(keyed, 100), Err(Refusal::Inconsistent));
}

#[test]
fn words() {
    let table = Table::filled(Man::Rook).unwrap();
    let told = |plies| table.look_up_at(position("R w e3 h1 e5"), plies).unwrap().to_string();
    assert_eq!(told(77), "mate in 23 plies, within the fifty-move rule at this count");
    assert_eq!(told(78), "mate in 23 plies, not within the fifty-move rule at this count");
}
