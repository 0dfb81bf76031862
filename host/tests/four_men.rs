//! Two men besides the kings: endings, numbers, moves, captures, lent tables and refusals.

use sledgewren::entry::{self, Lent};
use sledgewren::{Accepted, Checked, Ending, FourMen, Keyed, KeyedMan, Man, Refusal};
use sledgewren::{LARGE_TABLE_BYTES, PAWN_TABLE_BYTES, TABLE_BYTES};

/// Two men, each as kind, colour and square.
fn keyed(side: u8, white_king: u8, black_king: u8, men: [[u8; 3]; 2]) -> Keyed {
    let men = men.map(|[kind, colour, square]| Some(KeyedMan { kind, colour, square }));
    Keyed { side, white_king, black_king, men }
}

#[test]
fn endings() {
    for ending in Ending::all() {
        let bytes = match (ending.first(), ending.second()) {
            (Some(_), None) => TABLE_BYTES,
            (Some(_), Some(_)) => LARGE_TABLE_BYTES,
            (None, _) => PAWN_TABLE_BYTES,
        };
        assert_eq!(ending.table_bytes(), bytes, "{ending}");
    }
    for word in [
        5,
        255,
        0x102,
        0x104,
        0x504,
        0x1_0104,
        0x500,
        0x1_0000,
        0x1_0001,
        0x2_0100,
        0x101 | 1 << 24,
        u32::MAX,
    ] {
        assert_eq!((Ending::from_word(word), entry::table_bytes(word)), (None, 0), "{word:#x}");
        assert_eq!(entry::position(word, 0), Err(Refusal::BadMan), "{word:#x}");
    }
    // The rook first and Black's queen: the queen counts as the first, and they are one each.
    let men = keyed(0, 0, 63, [[1, 0, 9], [0, 1, 30]]);
    assert_eq!(Ending::of(men), Some(Ending::rivals(Man::Queen, Man::Rook)));
    let men = keyed(0, 0, 63, [[3, 1, 9], [2, 1, 30]]);
    assert_eq!(Ending::of(men), Some(Ending::two(Man::Bishop, Man::Knight)));
}

/// Every used number of a few thousand leads to a position that bears it, in either order of the
/// men and, unless like kinds are one each, with the colours exchanged.
#[test]
fn numbers_come_back() {
    for ending in Ending::all().filter(|ending| ending.second().is_some()) {
        for number in (0..LARGE_TABLE_BYTES as u32).step_by(997) {
            let Ok(found) = entry::position(ending, number) else { continue };
            let [first, second] = found.men;
            assert_eq!(entry::number(found), Ok(number), "{ending}");
            assert_eq!(Ending::of(found), Some(ending));
            let crossed = Keyed { men: [second, first], ..found };
            assert_eq!(entry::number(crossed), Ok(number), "{ending}");
            let other = |man: KeyedMan| KeyedMan { colour: 1 - man.colour, ..man };
            let exchanged = Keyed {
                side: 1 - found.side,
                white_king: found.black_king,
                black_king: found.white_king,
                men: found.men.map(|man| man.map(other)),
            };
            let alike = ending.is_rivals() && ending.second() == ending.first();
            assert!(alike || entry::number(exchanged) == Ok(number), "{ending}");
        }
    }
}

/// A capture leaves the other man as the first.
#[test]
fn captures() {
    let before = keyed(0, 18, 60, [[1, 1, 59], [0, 0, 27]]);
    let after = entry::play(before, 27, 59, 0).unwrap().unwrap();
    let queen = KeyedMan { kind: 0, colour: 0, square: 59 };
    assert_eq!(after.men, [Some(queen), None]);
    assert_eq!(entry::play(after, 60, 59, 0).unwrap().unwrap().men, [None, None]);
    assert_eq!(entry::play(before, 27, 60, 0), Ok(None));
}

#[test]
fn refusals() {
    let cases = [
        (keyed(0, 18, 60, [[4, 0, 27], [1, 0, 7]]), Refusal::BadMan),
        (keyed(0, 18, 60, [[0, 0, 27], [4, 0, 7]]), Refusal::BadMan),
        (keyed(0, 18, 60, [[0, 0, 27], [1, 2, 7]]), Refusal::BadSide),
        (keyed(0, 18, 60, [[0, 0, 27], [1, 0, 64]]), Refusal::BadSquare),
        (keyed(0, 18, 60, [[0, 0, 27], [1, 0, 27]]), Refusal::SharedSquare),
        (keyed(0, 18, 27, [[0, 0, 20], [1, 0, 7]]), Refusal::KingsTouch),
    ];
    for (keyed, refusal) in cases {
        assert_eq!(entry::number(keyed), Err(refusal), "{keyed:?}");
        assert_eq!(entry::count(keyed), Err(refusal), "{keyed:?}");
        assert_eq!(entry::moves(keyed).err(), Some(refusal), "{keyed:?}");
        assert_eq!(entry::look_up(keyed, Lent::NONE, &[]), Err(refusal), "{keyed:?}");
    }
    let sound = keyed(0, 18, 60, [[0, 0, 26], [1, 0, 7]]);
    assert_eq!(entry::look_up(sound, Lent::NONE, &[]), Err(Refusal::TableLength));
    assert_eq!(entry::second_opinion(sound, 1), Err(Refusal::BadMan));
    assert_eq!(entry::pocket_look_up(&[], sound), Err(Refusal::BadMan));
    assert_eq!(
        entry::position(Ending::two(Man::Queen, Man::Rook), 3_784_704),
        Err(Refusal::NumberTooHigh)
    );
}

/// 17 is asked after 7 and leaves the table as it was; steps do not ask it.
#[test]
fn lent_tables() {
    let queen = Accepted::filled(Man::Queen).unwrap();
    let rook = Accepted::filled(Man::Rook).unwrap();
    let [q, r] = [&queen, &rook].map(|table| &table.table().bytes()[..]);
    let ending = Ending::rivals(Man::Queen, Man::Rook);
    let mut large = vec![9; LARGE_TABLE_BYTES];
    for lent in [Lent { first: r, second: q }, Lent { first: q, second: q }] {
        assert_eq!(entry::fill(ending, lent, &mut large), Err(Refusal::NotAccepted));
        assert_eq!(entry::fill_back(ending, lent, &mut large), Err(Refusal::NotAccepted));
        assert_eq!(entry::check(ending, lent, &large), Err(Refusal::NotAccepted));
        assert_eq!(entry::fill(ending, lent, &mut large[1..]), Err(Refusal::TableLength));
        assert_eq!(entry::fill_back(ending, lent, &mut large[1..]), Err(Refusal::TableLength));
    }
    let short = Lent { first: q, second: &r[1..] };
    assert_eq!(entry::fill(ending, short, &mut large), Err(Refusal::TableLength));
    assert_eq!(entry::fill_back(ending, short, &mut large), Err(Refusal::TableLength));
    assert!(large.iter().all(|&byte| byte == 9));
    assert_eq!(entry::check(ending, Lent { first: q, second: r }, &large), Ok(Checked::Wrong(0)));
    let fills = FourMen::filled(ending, &rook, &queen);
    assert!(fills == Err(Refusal::NotInSet));
    let progress = entry::fill_start(ending, &mut large).unwrap();
    assert_eq!(progress.word(), 0);
    let (said, next) =
        entry::fill_step(ending, progress, Lent { first: r, second: r }, &mut large[1..]);
    assert_eq!((said, next), (Err(Refusal::TableLength), progress));
}
