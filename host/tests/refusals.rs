//! Every refusal, by each entry point that gives it, and which of several counts.

mod common;

use common::position;
use sledgewren::entry::{self, Lent};
use sledgewren::{Desk, Keyed, KeyedMan, Man, Refusal, Table, TABLE_BYTES};

/// Five bytes as keyed and the refusal they meet at the move list and look-up, if any. Each row
/// but the last also has faults with higher numbers.
const KEYED: [([u8; 5], u8); 21] = [
    ([5, 2, 64, 64, 64], 1),
    ([255, 0, 0, 1, 63], 1),
    ([5, 0, 0, 0, 1], 1),
    ([0, 2, 64, 0, 0], 2),
    ([3, 255, 0, 0, 1], 2),
    ([1, 2, 0, 7, 63], 2),
    ([0, 0, 64, 0, 0], 3),
    ([1, 1, 0, 64, 0], 3),
    ([2, 0, 0, 0, 64], 3),
    ([3, 1, 255, 255, 255], 3),
    ([0, 0, 0, 0, 63], 4),
    ([1, 0, 9, 9, 0], 4),
    ([2, 1, 0, 1, 0], 4),
    ([3, 1, 0, 63, 63], 4),
    ([0, 0, 0, 63, 9], 5),
    ([1, 1, 28, 0, 20], 5),
    ([0, 0, 0, 7, 63], 6),
    ([1, 0, 8, 0, 7], 6),
    ([2, 0, 1, 7, 28], 6),
    ([3, 0, 0, 46, 63], 6),
    ([0, 1, 0, 7, 63], 0),
];

fn expected(code: u8) -> Option<Refusal> {
    Refusal::from_code(code)
}

#[test]
fn one_to_six_as_keyed() {
    let table = Table::filled(Man::Queen).unwrap();
    for (keyed, code) in KEYED {
        let numbering = if code == 6 { None } else { expected(code) };
        assert_eq!(entry::number(keyed).err(), numbering, "{keyed:?}");
        assert_eq!(entry::count(keyed).err(), expected(code), "{keyed:?}");
        assert_eq!(entry::moves(keyed).err(), expected(code), "{keyed:?}");
        assert_eq!(table.look_up(keyed).err(), expected(code), "{keyed:?}");
    }
}

#[test]
fn one_to_six_before_seven() {
    for (keyed, code) in KEYED {
        let seven = if code == 0 { 7 } else { code };
        assert_eq!(entry::look_up(keyed, Lent::NONE, &[]).err(), expected(seven), "{keyed:?}");
    }
}

/// Two kings, the side to move, and men of any kind, colour and square.
fn keyed(side: u8, men: [Option<[u8; 3]>; 2]) -> Keyed {
    let men = men.map(|man| man.map(|[kind, colour, square]| KeyedMan { kind, colour, square }));
    Keyed { side, white_king: 0, black_king: 63, men }
}

#[test]
fn men_and_colours() {
    let table = Table::filled(Man::Queen).unwrap();
    let (white, black) = (Some([0, 0, 1]), Some([0, 1, 62]));
    let cases = [
        (keyed(0, [None, None]), 1),
        (keyed(0, [None, white]), 1),
        (keyed(2, [None, black]), 1),
        (keyed(0, [Some([5, 2, 64]), None]), 1),
        (keyed(0, [Some([0, 2, 64]), None]), 2),
        (keyed(2, [Some([0, 1, 64]), None]), 2),
        (keyed(1, [Some([3, 255, 0]), None]), 2),
        (keyed(1, [Some([3, 1, 64]), None]), 3),
        (keyed(1, [Some([3, 1, 63]), None]), 4),
        // Black's queen attacks the white king, and it is Black's turn
        (keyed(1, [Some([0, 1, 7]), None]), 6),
        (keyed(0, [white, None]), 0),
        (keyed(1, [black, None]), 0),
    ];
    for (keyed, code) in cases {
        let numbering = if code == 6 { None } else { expected(code) };
        assert_eq!(entry::number(keyed).err(), numbering, "{keyed:?}");
        assert_eq!(entry::count(keyed).err(), expected(code), "{keyed:?}");
        assert_eq!(entry::moves(keyed).err(), expected(code), "{keyed:?}");
        assert_eq!(entry::second_opinion(keyed, 1).err(), expected(code), "{keyed:?}");
        assert_eq!(table.look_up(keyed).err(), expected(code), "{keyed:?}");
    }
    // Two men: the parts that keep to one refuse them, and a table of one man is too short.
    for second in [black, Some([1, 0, 9])] {
        let two = keyed(0, [white, second]);
        assert_eq!(entry::second_opinion(two, 1).err(), expected(1), "{two:?}");
        assert_eq!(table.look_up(two).err(), expected(7), "{two:?}");
    }
}

#[test]
fn one_before_all() {
    for man in [5u8, 6, 128, 255] {
        assert_eq!(entry::position(man, u32::MAX), Err(Refusal::BadMan));
        assert_eq!(entry::fill(man, Lent::NONE, &mut [1, 2, 3]), Err(Refusal::BadMan));
        assert_eq!(entry::check(man, Lent::NONE, &[1, 2, 3]), Err(Refusal::BadMan));
        let mut table = Table::zeroed();
        table.bytes_mut().fill(165);
        assert_eq!(entry::fill(man, Lent::NONE, table.bytes_mut()), Err(Refusal::BadMan));
        assert_eq!(entry::fill_back(man, Lent::NONE, table.bytes_mut()), Err(Refusal::BadMan));
        assert!(table.bytes().iter().all(|&byte| byte == 165));
    }
}

#[test]
fn seven() {
    for man in Man::ALL {
        for len in [0, 1, TABLE_BYTES - 1, TABLE_BYTES + 1, 2 * TABLE_BYTES] {
            let mut bytes = vec![165; len];
            assert_eq!(entry::fill(man, Lent::NONE, &mut bytes), Err(Refusal::TableLength));
            assert_eq!(entry::fill_back(man, Lent::NONE, &mut bytes), Err(Refusal::TableLength));
            assert_eq!(entry::check(man, Lent::NONE, &bytes), Err(Refusal::TableLength));
            assert!(bytes.iter().all(|&byte| byte == 165));
        }
    }
}

#[test]
fn eight_and_nine() {
    for man in Man::ALL {
        for number in [59_136, 59_137, 65_536 + 2049, 0x8000_0000, u32::MAX] {
            assert_eq!(entry::position(man, number), Err(Refusal::NumberTooHigh));
        }
        let unused = (0..59_136).filter(|&number| entry::position(man, number).is_err());
        let unused: Vec<u32> = unused.collect();
        assert_eq!(unused.len(), 59_136 - 2 * 28_056);
        for number in unused {
            assert_eq!(entry::position(man, number), Err(Refusal::NumberUnused));
        }
    }
}

#[test]
fn ten_is_given_to_no_ending() {
    for man in Man::ALL {
        assert!(Table::zeroed().fill(man).is_ok());
    }
}

#[test]
fn eleven_on_damaged_bytes() {
    let mut table = Table::filled(Man::Queen).unwrap();
    let keyed = position("Q w b3 h2 a1");
    let number = keyed.number().unwrap() as usize;
    let right = table.bytes()[number];
    for byte in 0..=255 {
        table.bytes_mut()[number] = byte;
        let refused = (byte != right).then_some(Refusal::Inconsistent);
        assert_eq!(table.look_up(keyed).err(), refused, "byte {byte}");
    }
}

#[test]
fn twelve_at_the_desk() {
    let mut desk = Desk::new();
    let lines =
        ["", " ", "Q", "Q w b3 h2", "Q w b3 h2 a1 ", "Q  w b3 h2a1", "Q # 02049", "Q # 00098"];
    let digits = [
        "Q # 020496",
        "Q # 02049620",
        "Q # 020496x",
        "P # 020496x",
        "Q # -204962",
        "Q # 0 04962",
        "Q  #0204962",
        "Q w 0204962",
        "Q#  0204962",
    ];
    for line in lines.iter().chain(&digits) {
        assert_eq!(desk.answer(line.as_bytes()).text(), "refused 12", "{line:?}");
    }
}

#[test]
fn thirteen_at_the_desk() {
    let mut desk = Desk::new();
    // Two neighbours exchanged; all zeros; a wrong man, a high and an unused number; and 00, 01 and
    // 99, which leave 1 too.
    let lines = [
        "Q # 0209462",
        "Q # 0000000",
        "P # 0204963",
        "Q # 5913600",
        "Q # 0205600",
        "Q # 0006500",
        "Q # 0000001",
        "Q # 0003299",
    ];
    for line in lines {
        assert_eq!(desk.answer(line.as_bytes()).text(), "refused 13", "{line:?}");
    }
}

#[test]
fn the_others_at_the_desk() {
    let mut desk = Desk::new();
    let lines = [
        ("P w b3 h2 a1", 1),
        ("q # 0204962", 1),
        ("P W z9 z9 z9", 1),
        ("Q W b3 h2 a1", 2),
        ("Q # 5913606", 8),
        ("P # 9999925", 1),
        ("Q # 0205641", 9),
        ("Q w i3 h2 a1", 3),
        ("Q w b9 h2 a1", 3),
        ("Q w b3 H2 a1", 3),
        ("Q w b3 h0 a1", 3),
        ("Q w b3 b3 a1", 4),
        ("Q w b2 h2 a1", 5),
        ("Q w b3 b2 a1", 6),
    ];
    for (line, code) in lines {
        assert_eq!(desk.answer(line.as_bytes()).text(), format!("refused {code}"), "{line:?}");
    }
}
