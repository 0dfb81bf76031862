//! The pocket edition: packed tables, pocket look-up, tallies, refusals.

mod common;

use common::position;
use sledgewren::{entry, ffi, Accepted, Keyed, Man, Outcome, Pocket, Refusal, Table, Tallies};
use sledgewren::{POCKET_BYTES, TABLE_BYTES};

const DIRT: u8 = 165;

fn accepted(man: Man) -> Accepted {
    let table = Table::filled(man).unwrap();
    table.accept(man).unwrap_or_else(|wrong| panic!("{wrong}"))
}

#[test]
fn tallies_of_the_four_endings() {
    let tallies = |man| {
        let Tallies { none, draws, wins, losses } = Pocket::packed(&accepted(man)).tallies();
        (none, draws, wins, losses)
    };
    assert_eq!(tallies(Man::Queen), (12_999, 2896, 18_081, 25_160));
    assert_eq!(tallies(Man::Rook), (9121, 2796, 21_959, 25_260));
    assert_eq!(tallies(Man::Bishop), (6902, 52_234, 0, 0));
    assert_eq!(tallies(Man::Knight), (5330, 53_806, 0, 0));
}

#[test]
fn the_answer_is_the_large_ones_everywhere() {
    for man in Man::ALL {
        let accepted = accepted(man);
        let (table, pocket) = (accepted.table(), Pocket::packed(&accepted));
        for place in 0..4 * 64 * 64 * 64u32 {
            let square = |shift: u32| (place >> shift & 63) as u8;
            let (side, colour) = ((place >> 18 & 1) as u8, (place >> 19) as u8);
            let keyed: Keyed = [man.code(), side, square(12), square(6), square(0), colour].into();
            assert_eq!(pocket.look_up(keyed), table.look_up(keyed).map(Outcome::from), "{keyed:?}");
        }
    }
}

#[test]
fn the_class_of_every_byte_at_every_place() {
    for place in 0..4 {
        for byte in 0..=255 {
            let mut table = Table::zeroed();
            table.bytes_mut()[4 * 100 + place] = byte;
            let class = match byte {
                0 | 1 => byte,
                _ if byte % 2 == 1 => 2,
                _ => 3,
            };
            let mut expected = [0; POCKET_BYTES];
            expected[100] = class << (2 * place);
            assert!(Pocket::of_table(&table).bytes() == &expected, "{byte} at {place}");
        }
    }
}

#[test]
fn the_last_number_stands_at_the_last_bits() {
    let mut table = Table::zeroed();
    table.bytes_mut()[TABLE_BYTES - 1] = 2;
    let pocket = Pocket::of_table(&table);
    assert_eq!(pocket.bytes()[POCKET_BYTES - 1], 3 << 6);
    let tallies = Tallies { none: 59_135, draws: 0, wins: 0, losses: 1 };
    assert_eq!(pocket.tallies(), tallies);
}

#[test]
fn eleven_exactly_at_entry_0() {
    let mut pocket = Pocket::packed(&accepted(Man::Queen));
    let keyed = position("Q w b3 h2 a1");
    let number = keyed.number().unwrap() as usize;
    for entry in 0..4 {
        let byte = &mut pocket.bytes_mut()[number / 4];
        *byte &= !(3 << (2 * (number % 4)));
        *byte |= entry << (2 * (number % 4));
        let expected =
            [Err(Refusal::Inconsistent), Ok(Outcome::Draw), Ok(Outcome::Win), Ok(Outcome::Loss)];
        assert_eq!(pocket.look_up(keyed), expected[entry as usize]);
    }
}

#[test]
fn refusals_of_the_position_come_first() {
    let keyed = [
        ([4, 2, 64, 64, 64], 1),
        ([0, 2, 64, 0, 0], 2),
        ([0, 0, 64, 0, 0], 3),
        ([0, 0, 0, 0, 63], 4),
        ([0, 0, 0, 63, 9], 5),
        ([0, 0, 17, 9, 0], 6),
        ([0, 0, 17, 15, 0], 7),
    ];
    for len in [0, 1, POCKET_BYTES - 1, POCKET_BYTES + 1, TABLE_BYTES] {
        for (keyed, code) in keyed {
            let refused = entry::pocket_look_up(&vec![85; len], keyed).err();
            assert_eq!(refused.map(Refusal::code), Some(code), "{keyed:?}, {len} bytes");
        }
    }
}

#[test]
fn other_lengths_are_refused_and_nothing_is_written() {
    let seven = Err(Refusal::TableLength);
    for (table, pocket) in [
        (TABLE_BYTES - 1, POCKET_BYTES),
        (TABLE_BYTES + 1, POCKET_BYTES),
        (TABLE_BYTES, POCKET_BYTES - 1),
        (TABLE_BYTES, POCKET_BYTES + 1),
        (POCKET_BYTES, TABLE_BYTES),
        (0, 0),
    ] {
        let mut lent = vec![DIRT; pocket];
        assert_eq!(entry::pack(&vec![3; table], &mut lent), seven, "{table}, {pocket}");
        assert!(lent.iter().all(|&byte| byte == DIRT), "{table}, {pocket}");
    }
    for len in [0, 8, POCKET_BYTES - 1, POCKET_BYTES + 1] {
        assert_eq!(entry::tallies(&vec![0; len]), Err(Refusal::TableLength));
        assert!(Pocket::from_bytes(&vec![0; len]).is_err());
    }
}

#[test]
fn words() {
    let pocket = Pocket::from_bytes(&[0b_11_10_01_00; POCKET_BYTES]).unwrap();
    let bytes = pocket.bytes();
    // SAFETY: the pointer leads to as many bytes as the length says.
    let word = unsafe { ffi::sledgewren_tallies(bytes.as_ptr(), bytes.len()) };
    assert_eq!(word, 14_784 * 0x1_0001_0001_0001);
    // SAFETY: as above.
    let word = unsafe { ffi::sledgewren_tallies(bytes.as_ptr(), bytes.len() - 1) };
    assert_eq!(word, 7);
    assert_eq!(
        (Outcome::Win.to_string(), Outcome::Loss.to_string()),
        ("win".into(), "loss".into())
    );
}
