//! King and pawn: numbers, promotions, lent tables, games and refusals.

use sledgewren::entry::{self, Lent};
use sledgewren::{Accepted, Checked, Ending, FourTables, Keyed, KeyedMan, KingAndPawn, Man, Move};
use sledgewren::{Refusal, Square, Value, FOUR_TABLES_BYTES, PAWN_TABLE_BYTES, TABLE_BYTES};

/// White's pawn: the side to move, the white king, the pawn and the black king.
fn white(side: u8, white_king: u8, pawn: u8, black_king: u8) -> Keyed {
    Keyed::from([KeyedMan::PAWN, side, white_king, pawn, black_king])
}

/// Left for right.
fn reversed(keyed: Keyed) -> Keyed {
    turned(keyed, 7)
}

/// The colours exchanged and the ranks turned round.
fn exchanged(keyed: Keyed) -> Keyed {
    let keyed = turned(keyed, 56);
    Keyed {
        side: 1 - keyed.side,
        white_king: keyed.black_king,
        black_king: keyed.white_king,
        men: keyed.men.map(|man| man.map(|man| KeyedMan { colour: 1 - man.colour, ..man })),
    }
}

fn turned(keyed: Keyed, by: u8) -> Keyed {
    Keyed {
        white_king: keyed.white_king ^ by,
        black_king: keyed.black_king ^ by,
        men: keyed.men.map(|man| man.map(|man| KeyedMan { square: man.square ^ by, ..man })),
        ..keyed
    }
}

fn turned_move(chosen: Move, by: u8) -> Move {
    let [from, to] =
        [chosen.from, chosen.to].map(|square| Square::from_code(square.code() ^ by).unwrap());
    Move { from, to, ..chosen }
}

/// Kc2, pawn a7 against Ka1, White to move: a win in 1 by `a7a8q`, though the rook mates too.
#[test]
fn the_bench_position() {
    let four = FourTables::filled().unwrap();
    let table = KingAndPawn::filled(&four).unwrap();
    let position = white(0, 10, 48, 0);
    for by in [0, 7] {
        let position = turned(position, by);
        let answer = table.look_up(position).unwrap();
        assert_eq!(answer.value(), Value::Win(1));
        let best = answer.best().unwrap();
        assert_eq!(best, turned_move("a7a8q".parse().unwrap(), by));
        let other = exchanged(position);
        assert_eq!(table.look_up(other).unwrap().best(), Some(turned_move(best, 56)));
        for (man, value) in [(Man::Queen, Value::Loss(0)), (Man::Rook, Value::Loss(0))] {
            let after = position.play(Move { becomes: Some(man), ..best }).unwrap().unwrap();
            assert_eq!(table.look_up(after).unwrap().value(), value);
        }
    }
    // Nothing is marked with a pawn; the queen that he becomes is.
    assert!(!table.look_up_at(position, 0).unwrap().within_fifty);
    let queen = position.play("a7a8q".parse().unwrap()).unwrap().unwrap();
    assert!(table.look_up_at(queen, 0).unwrap().within_fifty);
    assert_eq!(table.look_up_at(position, 100), Err(Refusal::TooManyQuiet));
}

#[test]
fn promotions() {
    let position = white(0, 10, 48, 0);
    let listed: Vec<String> = entry::moves(position).unwrap().iter().map(Move::to_string).collect();
    assert_eq!(listed[listed.len() - 4..], ["a7a8q", "a7a8r", "a7a8b", "a7a8n"]);
    assert_eq!(entry::count(position), Ok(listed.len() as u8));
    for becomes in 0..=255 {
        let after = entry::play(position, 48, 56, becomes).unwrap();
        let kind = after.map(|after| after.men[0].unwrap().kind);
        assert_eq!(kind, (1..=4).contains(&becomes).then(|| becomes - 1));
        assert_eq!(entry::play(position, 10, 11, becomes).unwrap().is_some(), becomes == 0);
    }
    // One square, two squares, neither, and a pawn that is taken.
    let moves =
        |keyed| entry::moves(keyed).unwrap().iter().map(Move::to_string).collect::<Vec<_>>();
    assert!(moves(white(0, 0, 12, 63)).ends_with(&["e2e3".into(), "e2e4".into()]));
    assert!(moves(white(0, 0, 20, 63)).ends_with(&["e3e4".into()]));
    assert!(moves(white(0, 0, 12, 20)).iter().all(|text| text.starts_with("a1")));
    assert!(moves(white(1, 0, 12, 4)).contains(&"e1xe2".into()));
    let bare = entry::play(white(1, 0, 12, 4), 4, 12, 0).unwrap().unwrap();
    assert_eq!(bare.men, [None, None]);
    assert!(moves(exchanged(white(0, 0, 12, 63))).contains(&"e7e5".into()));
}

#[test]
fn numbers_come_back() {
    let mut used = 0;
    for number in 0..PAWN_TABLE_BYTES as u32 {
        let Ok(found) = entry::position(Ending::PAWN, number) else {
            assert_eq!(entry::position(Ending::PAWN, number), Err(Refusal::NumberUnused));
            continue;
        };
        used += 1;
        assert_eq!(Ending::of(found), Some(Ending::PAWN));
        for same in [found, reversed(found), exchanged(found), exchanged(reversed(found))] {
            assert_eq!(entry::number(same), Ok(number));
        }
    }
    assert!(used > 150_000);
    assert_eq!(entry::number(white(0, 10, 48, 0)), Ok(82_560));
    assert_eq!(entry::position(Ending::PAWN, PAWN_TABLE_BYTES as u32), Err(Refusal::NumberTooHigh));
}

/// 18 is asked after 3 and before 4, and a second man before all.
#[test]
fn refusals() {
    let with_queen = Keyed {
        men: [white(0, 10, 48, 0).men[0], Some(KeyedMan { kind: 0, colour: 0, square: 20 })],
        ..white(0, 10, 48, 0)
    };
    let cases = [
        (with_queen, Refusal::BadMan),
        (Keyed { men: [with_queen.men[1], with_queen.men[0]], ..with_queen }, Refusal::BadMan),
        (white(2, 10, 0, 64), Refusal::BadSide),
        (white(0, 10, 0, 64), Refusal::BadSquare),
        (white(0, 10, 64, 0), Refusal::BadSquare),
        (white(0, 0, 0, 1), Refusal::BadPawn),
        (white(0, 10, 63, 0), Refusal::BadPawn),
        (exchanged(white(1, 10, 7, 0)), Refusal::BadPawn),
        (white(0, 8, 8, 9), Refusal::SharedSquare),
        (white(0, 10, 48, 9), Refusal::KingsTouch),
    ];
    let table = vec![0; PAWN_TABLE_BYTES];
    for (keyed, refusal) in cases {
        assert_eq!(entry::number(keyed), Err(refusal), "{keyed:?}");
        assert_eq!(entry::count(keyed), Err(refusal), "{keyed:?}");
        assert_eq!(entry::moves(keyed).err(), Some(refusal), "{keyed:?}");
        assert_eq!(entry::play(keyed, 48, 56, 1), Err(refusal), "{keyed:?}");
        assert_eq!(entry::look_up(keyed, Lent::NONE, &table), Err(refusal), "{keyed:?}");
        assert_eq!(entry::second_opinion(keyed, 1), Err(Refusal::BadMan), "{keyed:?}");
        assert_eq!(entry::pocket_look_up(&[], keyed), Err(Refusal::BadMan), "{keyed:?}");
    }
    // The pawn attacks the king whose turn it is not.
    assert_eq!(entry::count(white(0, 10, 48, 57)), Err(Refusal::OtherInCheck));
    assert_eq!(entry::set_find(&[0; 4], KeyedMan::PAWN), Err(Refusal::BadMan));
}

/// 7 for the run's length, 17 after it for one wrong byte of any of the four; steps do not ask.
#[test]
fn lent_tables() {
    let four = FourTables::filled().unwrap();
    let mut bytes = vec![9; PAWN_TABLE_BYTES];
    for length in [0, TABLE_BYTES, FOUR_TABLES_BYTES - 1] {
        let lent = Lent { first: &four.bytes()[..length], second: four.bytes() };
        assert_eq!(entry::fill(Ending::PAWN, lent, &mut bytes), Err(Refusal::TableLength));
        assert_eq!(entry::check(Ending::PAWN, lent, &bytes), Err(Refusal::TableLength));
        let position = white(0, 10, 48, 0);
        assert_eq!(entry::look_up(position, lent, &bytes), Err(Refusal::TableLength));
    }
    assert_eq!(entry::fill(Ending::PAWN, four.lent(), &mut bytes[1..]), Err(Refusal::TableLength));
    for man in Man::ALL {
        let mut run = four.bytes().to_vec();
        run[man.code() as usize * TABLE_BYTES + 2049] ^= 1;
        let lent = Lent { first: &run, second: &[] };
        assert_eq!(entry::fill(Ending::PAWN, lent, &mut bytes), Err(Refusal::NotAccepted));
        assert_eq!(entry::check(Ending::PAWN, lent, &bytes), Err(Refusal::NotAccepted));
    }
    // The quicker fill keeps to pieces.
    assert_eq!(entry::fill_back(Ending::PAWN, four.lent(), &mut bytes), Err(Refusal::BadMan));
    assert!(bytes.iter().all(|&byte| byte == 9));
    assert_eq!(entry::check(Ending::PAWN, four.lent(), &bytes), Ok(Checked::Wrong(0)));
    let tables = Man::ALL.map(|man| Accepted::filled(man).unwrap());
    let [queen, rook, bishop, knight] = &tables;
    assert!(FourTables::of([queen, rook, bishop, knight]).as_ref() == Ok(&four));
    assert!(FourTables::of([rook, queen, bishop, knight]) == Err(Refusal::NotInSet));
}

/// Filled whole and in steps, accepted, and damaged; greatest depth 56: mated in 28 moves.
#[test]
fn filling_and_checking() {
    let four = FourTables::filled().unwrap();
    let mut bytes = vec![9; PAWN_TABLE_BYTES];
    assert_eq!(entry::fill(Ending::PAWN, four.lent(), &mut bytes), Ok(Some(56)));
    let mut deepest = 0;
    let stepped = KingAndPawn::filled_with_progress(&four, |settled| {
        if settled.count > 0 {
            deepest = settled.depth;
        }
    })
    .unwrap();
    assert!(stepped.bytes() == bytes && deepest == 56);
    let number = entry::number(white(0, 10, 48, 0)).unwrap();
    assert!(KingAndPawn::accept(&four, bytes.clone().into()).is_ok());
    bytes[number as usize] = 1;
    let wrong = KingAndPawn::accept(&four, bytes.into()).unwrap_err();
    assert_eq!(wrong.why, Ok(number));
    let short = KingAndPawn::accept(&four, Box::new([])).unwrap_err();
    assert_eq!(short.why, Err(Refusal::TableLength));
}

/// From one position in a hundred both sides follow the tables, through promotions, to mate in the
/// depth told.
#[test]
fn games() {
    let four = FourTables::filled().unwrap();
    let table = KingAndPawn::filled(&four).unwrap();
    for number in (0..PAWN_TABLE_BYTES as u32).step_by(101) {
        let Ok(start) = entry::position(Ending::PAWN, number) else { continue };
        for mut position in [start, exchanged(start)] {
            let Ok(first) = table.look_up(position) else { continue };
            let Some(depth) = first.depth() else { continue };
            let mut plies = 0;
            while let Some(best) = table.look_up(position).unwrap().best() {
                position = position.play(best).unwrap().unwrap();
                plies += 1;
            }
            assert_eq!((plies, table.look_up(position).unwrap().value()), (depth, Value::Loss(0)));
        }
    }
}
