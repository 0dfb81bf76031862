//! Sets of tables: written, read, refused.

mod common;

use common::position;
use sledgewren::entry::{self, Lent};
use sledgewren::{Checked, Choice, Man, Refusal, Set, Table, TABLE_BYTES};

const DIRT: u8 = 165;

/// The bytes of a set with the queen's table alone.
fn queen() -> Vec<u8> {
    Set::written([Man::Queen].into_iter().collect()).unwrap().into_bytes()
}

fn choices() -> impl Iterator<Item = Choice> {
    (0..16u8).map(|bits| Man::ALL.into_iter().filter(|&man| bits >> man.code() & 1 == 1).collect())
}

fn word(set: &[u8], at: usize) -> u32 {
    u32::from_le_bytes(set[at..at + 4].try_into().unwrap())
}

#[test]
fn lengths() {
    assert_eq!(Choice::default().set_bytes(), 4);
    assert_eq!(Choice::ALL.set_bytes(), 236_596);
    assert_eq!(Set::written(Choice::default()).unwrap().bytes(), [0; 4]);
}

#[test]
fn all_four() {
    let set = Set::written(Choice::ALL).unwrap();
    assert_eq!(word(set.bytes(), 0), 4);
    for (row, man) in Man::ALL.into_iter().enumerate() {
        let offset = 52 + row * TABLE_BYTES;
        let entry = [4 + 12 * row, 8 + 12 * row, 12 + 12 * row].map(|at| word(set.bytes(), at));
        assert_eq!(entry, [man.code() as u32, offset as u32, 59_136], "{man}");
        assert_eq!(entry::set_find(set.bytes(), man), Ok(offset..offset + TABLE_BYTES));
        let table = set.table(man).unwrap();
        assert_eq!(table, Table::filled(man).unwrap().bytes(), "{man}");
        assert_eq!(table.as_ptr(), set.bytes()[offset..].as_ptr(), "{man}: the very part");
        assert_eq!(entry::check(man, Lent::NONE, table), Ok(Checked::Accepted), "{man}");
    }
}

#[test]
fn every_choice() {
    let tables = Man::ALL.map(|man| Table::filled(man).unwrap());
    for choice in choices() {
        let mut told = Vec::new();
        let set = Set::written_by_endings(choice, |man, depth| told.push((man, depth))).unwrap();
        assert_eq!(set.bytes(), Set::written(choice).unwrap().bytes(), "{choice:?}");
        assert_eq!(set.bytes().len(), choice.set_bytes());
        assert_eq!(set.choice(), choice);
        assert_eq!(told.iter().map(|&(man, _)| man).collect::<Choice>(), choice);
        for (man, depth) in told {
            let greatest = [Some(20), Some(32), None, None][man as usize];
            assert_eq!(depth, greatest, "{man}");
        }
        for man in Man::ALL {
            match set.table(man) {
                Ok(table) => assert_eq!(table, tables[man as usize].bytes()),
                Err(refusal) => assert_eq!((refusal, choice.has(man)), (Refusal::NotInSet, false)),
            }
        }
    }
}

#[test]
fn each_ending_in_its_own_part() {
    let mut bytes = vec![DIRT; Choice::ALL.set_bytes()];
    entry::set_start(Choice::ALL, &mut bytes).unwrap();
    assert!(bytes[52..].iter().all(|&byte| byte == DIRT));
    assert_eq!(entry::set_fill(Man::Bishop, &mut bytes), Ok(None));
    let place = entry::set_find(&bytes, Man::Bishop).unwrap();
    assert_eq!(&bytes[place.clone()], Table::filled(Man::Bishop).unwrap().bytes());
    assert!(bytes[52..place.start].iter().chain(&bytes[place.end..]).all(|&byte| byte == DIRT));
}

#[test]
fn another_length_is_14_and_nothing_is_written() {
    for choice in choices() {
        let right = choice.set_bytes();
        for len in [0, 3, 4, 5, right - 1, right + 1, TABLE_BYTES, 236_596] {
            if len == right {
                continue;
            }
            let mut bytes = vec![DIRT; len];
            assert_eq!(entry::set_write(choice, &mut bytes), Err(Refusal::WrongSet));
            assert_eq!(entry::set_start(choice, &mut bytes), Err(Refusal::WrongSet));
            assert_eq!(entry::set_fill(Man::Queen, &mut bytes), Err(Refusal::WrongSet));
            assert!(bytes.iter().all(|&byte| byte == DIRT), "{choice:?}, {len} bytes");
        }
    }
}

#[test]
fn the_lowest_refusal_counts() {
    let mut wrong = [9; 7];
    for code in [4u8, 5, 128, 255] {
        assert_eq!(entry::set_find(&wrong, code), Err(Refusal::BadMan));
        assert_eq!(entry::set_fill(code, &mut wrong), Err(Refusal::BadMan));
        assert_eq!(entry::set_find(&[0; 4], code), Err(Refusal::BadMan));
    }
    for man in Man::ALL {
        assert_eq!(entry::set_find(&wrong, man), Err(Refusal::WrongSet));
        assert_eq!(entry::set_find(&[0; 4], man), Err(Refusal::NotInSet));
        assert_eq!(entry::set_fill(man, &mut [0; 4]), Err(Refusal::NotInSet));
    }
    assert_eq!(wrong, [9; 7]);
}

#[test]
fn a_byte_too_few_or_too_many() {
    let bytes = queen();
    assert!(Set::from_bytes(&bytes[..]).is_ok());
    for len in 0..bytes.len() {
        assert_eq!(Set::from_bytes(&bytes[..len]).err(), Some(Refusal::WrongSet), "{len} bytes");
    }
    let longer = [&bytes[..], &[0]].concat();
    assert_eq!(Set::from_bytes(longer).err(), Some(Refusal::WrongSet));
}

#[test]
fn any_header_byte_of_all_four_altered() {
    let mut bytes = Set::written(Choice::ALL).unwrap().into_bytes();
    for at in 0..52 {
        let right = bytes[at];
        for byte in (0..=255).filter(|&byte| byte != right) {
            bytes[at] = byte;
            assert_eq!(entry::set_find(&bytes, Man::Queen), Err(Refusal::WrongSet), "{at}: {byte}");
        }
        bytes[at] = right;
    }
}

#[test]
fn of_fewer_endings_only_a_code_may_become_another() {
    let mut bytes = Set::written([Man::Rook].into_iter().collect()).unwrap().into_bytes();
    for at in 0..16 {
        let right = bytes[at];
        for byte in (0..=255).filter(|&byte| byte != right) {
            bytes[at] = byte;
            let found = Man::ALL.map(|man| entry::set_find(&bytes, man));
            if at == 4 && byte < 4 {
                // The rook's table under another name: only checking tells.
                let named = Man::from_code(byte).unwrap();
                let place = found[byte as usize].clone().unwrap();
                assert!(matches!(
                    entry::check(named, Lent::NONE, &bytes[place]),
                    Ok(Checked::Wrong(_))
                ));
            } else {
                assert_eq!(found, [(); 4].map(|_| Err(Refusal::WrongSet)), "{at}: {byte}");
            }
        }
        bytes[at] = right;
    }
}

#[test]
fn counts_and_offsets_that_no_set_has() {
    let bytes = queen();
    for (at, wrong) in [(0, u32::MAX), (0, 0), (0, 2), (8, u32::MAX), (8, 0), (12, u32::MAX)] {
        let mut damaged = bytes.clone();
        damaged[at..at + 4].copy_from_slice(&wrong.to_le_bytes());
        assert_eq!(entry::set_find(&damaged, Man::Queen), Err(Refusal::WrongSet));
    }
    assert_eq!(entry::set_find(&[255; 4], Man::Queen), Err(Refusal::WrongSet));
}

#[test]
fn owned_and_lent() {
    let bytes = queen();
    let lent = Set::from_bytes(&bytes[..]).unwrap();
    assert_eq!(lent.bytes().as_ptr(), bytes.as_ptr());
    let owned = Set::from_bytes(bytes.clone()).unwrap();
    assert!(owned == lent && owned.borrowed() == lent);
    let found = owned.look_up(position("Q w b3 h2 a1")).unwrap();
    assert_eq!(found.to_string(), "win 1 h2a2");
    assert_eq!(owned.look_up(position("R w b3 h2 a1")), Err(Refusal::NotInSet));
    assert_eq!(owned.into_bytes(), bytes);
}
