//! The scope paper's positions to keep by the bench.

mod common;

use common::position;
use sledgewren::entry::{self, Lent};
use sledgewren::{Answer, Man, Position, Refusal, Table, TABLE_BYTES};

#[test]
fn numbers() {
    assert_eq!(position("Q w a1 b1 h8").number(), Ok(2049));
    assert_eq!(position("Q w a1 a2 h8").number(), Ok(2049));
    assert_eq!(position("Q w h8 h7 a1").number(), Ok(2049));
    assert_eq!(position("Q w a1 h8 c1").number(), Ok(63));
}

#[test]
fn numbers_back() {
    let back = |number| Position::from_number(Man::Queen, number);
    assert_eq!(back(2049), Ok(position("Q w a1 b1 h8")));
    assert_eq!(back(2056), Err(Refusal::NumberUnused));
    assert!(back(59_127).is_ok());
    for number in 59_128..59_136 {
        assert_eq!(back(number), Err(Refusal::NumberUnused), "{number}");
    }
    assert_eq!(back(59_136), Err(Refusal::NumberTooHigh));
}

#[test]
fn refused() {
    assert_eq!(position("Q w a1 h8 b2").number(), Err(Refusal::KingsTouch));
    assert_eq!(position("R w a1 a1 h8").number(), Err(Refusal::SharedSquare));
}

#[test]
fn mates_and_stalemate() {
    let rook = Table::filled(Man::Rook).unwrap();
    let queen = Table::filled(Man::Queen).unwrap();
    let mated = Ok(Answer::Loss { depth: 0, best: None });
    assert_eq!(rook.look_up(position("R b a3 h1 a1")), mated);
    assert_eq!(queen.look_up(position("Q b b3 b2 a1")), mated);
    assert_eq!(queen.look_up(position("Q b e5 b3 a1")), Ok(Answer::Draw { best: None }));
}

#[test]
fn the_rook_sees_through_the_square_the_king_leaves() {
    let position = position("R b a1 a5 e5");
    let written: Vec<String> = position.moves().unwrap().iter().map(|m| m.to_string()).collect();
    assert_eq!(written, ["e5d4", "e5e4", "e5f4", "e5d6", "e5e6", "e5f6"]);
    assert_eq!(position.count(), Ok(6));
}

#[test]
fn a_move_says_what_it_takes() {
    let written = |line| -> Vec<String> {
        position(line).moves().unwrap().iter().map(|m| m.to_string()).collect()
    };
    assert_eq!(written("Q b h8 b2 a1"), ["a1xb2"]);
    assert_eq!(written("N b a8 e3 e4")[..3], ["e4d3", "e4xe3", "e4f3"]);
}

#[test]
fn the_white_king_stops_the_rook() {
    let position = position("R w c1 a1 e1");
    assert!(position.count().is_ok());
    assert!(Table::filled(Man::Rook).unwrap().look_up(position).is_ok());
}

#[test]
fn tables_of_other_lengths() {
    for len in [TABLE_BYTES - 1, TABLE_BYTES + 1] {
        let mut bytes = vec![77; len];
        let refused = Refusal::TableLength;
        assert_eq!(entry::fill(Man::Queen, Lent::NONE, &mut bytes), Err(refused));
        assert_eq!(entry::check(Man::Queen, Lent::NONE, &bytes), Err(refused));
        assert_eq!(entry::look_up(position("Q w a1 b1 h8"), Lent::NONE, &bytes), Err(refused));
        assert!(Table::from_bytes(&bytes).is_err());
        assert!(bytes.iter().all(|&byte| byte == 77));
    }
}
