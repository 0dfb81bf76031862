//! All four tables: filled, checked, and every position looked up.

use sledgewren::entry::Lent;
use sledgewren::{
    entry, Accepted, Answer, Checked, Man, Move, Position, Refusal, Side, Table, Value, TABLE_BYTES,
};

/// Greatest depth in plies, or none where nothing is decided.
fn published(man: Man) -> Option<u8> {
    match man {
        Man::Queen => Some(20),
        Man::Rook => Some(32),
        Man::Bishop | Man::Knight => None,
    }
}

fn accepted(man: Man) -> Accepted {
    let mut table = Table::zeroed();
    table.bytes_mut().fill(165);
    assert_eq!(table.fill(man), Ok(published(man)), "{man}");
    table.accept(man).unwrap_or_else(|wrong| panic!("{wrong}"))
}

/// The position after a move, or none if the man is taken.
fn played(position: Position, chosen: Move) -> Option<Position> {
    let mut next = Position { side: position.side.other(), ..position };
    if chosen.from == position.man_square {
        next.man_square = chosen.to;
    } else if chosen.to == position.man_square {
        return None;
    } else {
        match position.side {
            Side::White => next.white_king = chosen.to,
            Side::Black => next.black_king = chosen.to,
        }
    }
    Some(next)
}

/// The colours, the kings and the side to move exchanged.
fn exchanged(position: Position) -> Position {
    Position {
        owner: position.owner.other(),
        side: position.side.other(),
        white_king: position.black_king,
        black_king: position.white_king,
        ..position
    }
}

fn value_of(byte: u8) -> Value {
    match byte {
        0 | 1 => Value::Draw,
        _ if byte % 2 == 1 => Value::Win(byte - 2),
        _ => Value::Loss(byte - 2),
    }
}

fn value_after(table: &Table, position: Position, chosen: Move) -> Value {
    played(position, chosen).map_or(Value::Draw, |next| table.look_up(next).unwrap().value())
}

fn judge(table: &Table, position: Position, answer: Answer) {
    let moves = position.moves().unwrap();
    assert_eq!(position.count(), Ok(moves.len() as u8), "{position}");
    for &chosen in &moves {
        assert_eq!(chosen.takes, played(position, chosen).is_none(), "{position} {chosen}");
    }
    let wanted = match answer.value() {
        Value::Win(depth) => Some(Value::Loss(depth - 1)),
        Value::Loss(depth) => depth.checked_sub(1).map(Value::Win),
        Value::Draw => Some(Value::Draw),
    };
    let first = moves.iter().find(|&&chosen| Some(value_after(table, position, chosen)) == wanted);
    assert_eq!(answer.best(), first.copied(), "{position}");
    assert_eq!(answer.best().is_none(), moves.is_empty(), "{position}");
}

fn judge_all(man: Man) -> usize {
    let accepted = accepted(man);
    let table = accepted.table();
    let mut legal = 0;
    for (number, &byte) in table.bytes().iter().enumerate() {
        let position = match Position::from_number(man, number as u32) {
            Ok(position) => position,
            Err(refusal) => {
                assert_eq!((refusal, byte), (Refusal::NumberUnused, 0), "{number}");
                continue;
            }
        };
        for position in [position, exchanged(position)] {
            assert_eq!(position.number(), Ok(number as u32));
            match accepted.look_up(position) {
                Ok(answer) => {
                    assert_eq!(answer.value(), value_of(byte), "{position}");
                    judge(table, position, answer);
                    legal += (position.owner == Side::White) as usize;
                }
                Err(refusal) => {
                    assert_eq!((refusal, byte), (Refusal::OtherInCheck, 0), "{position}")
                }
            }
        }
    }
    legal
}

#[test]
fn queen() {
    assert_eq!(judge_all(Man::Queen), 18_081 + 28_056);
}

#[test]
fn rook() {
    assert_eq!(judge_all(Man::Rook), 21_959 + 28_056);
}

#[test]
fn bishop() {
    judge_all(Man::Bishop);
}

#[test]
fn knight() {
    judge_all(Man::Knight);
}

#[test]
fn both_fills_write_the_same() {
    for man in Man::ALL {
        let (mut first, mut second) = (vec![165; TABLE_BYTES], vec![90; TABLE_BYTES]);
        let answers = [
            entry::fill(man, Lent::NONE, &mut first),
            entry::fill_back(man, Lent::NONE, &mut second),
        ];
        assert_eq!(answers, [Ok(published(man)); 2], "{man}");
        assert!(first == second, "{man}");
    }
}

#[test]
fn no_table_is_accepted_for_another_man() {
    for man in Man::ALL {
        let table = Table::filled(man).unwrap();
        assert_eq!(entry::check(man, Lent::NONE, table.bytes()), Ok(Checked::Accepted));
        for other in Man::ALL.into_iter().filter(|&other| other != man) {
            assert!(matches!(table.check(other), Checked::Wrong(_)), "{man} as {other}");
        }
    }
}

#[test]
fn the_lowest_wrong_number_is_named() {
    let mut table = Table::filled(Man::Queen).unwrap();
    // Unused numbers have no predecessors: the damage itself is the only fault.
    table.bytes_mut()[59_128] = 1;
    assert_eq!(table.check(Man::Queen), Checked::Wrong(59_128));
    table.bytes_mut()[2056] = 255;
    assert_eq!(table.check(Man::Queen), Checked::Wrong(2056));
    let wrong = table.accept(Man::Queen).unwrap_err();
    assert_eq!((wrong.man, wrong.number, wrong.table.bytes()[2056]), (Man::Queen, 2056, 255));
    assert_eq!(wrong.to_string(), "not the queen's table: number 2056 is wrong");
    assert_eq!(Table::from_bytes(wrong.table.bytes()), Ok(wrong.table));
}

#[test]
fn a_filled_table_is_accepted_and_knows_its_ending() {
    let queen = Accepted::filled(Man::Queen).unwrap();
    assert_eq!(queen.man(), Man::Queen);
    let found = queen.look_up("Q w b3 h2 a1".parse().unwrap()).unwrap();
    assert_eq!(found.to_string(), "win 1 h2a2");
    let other = queen.look_up("R w b3 h2 a1".parse().unwrap());
    assert_eq!(other, Err(Refusal::NotInSet));
}
