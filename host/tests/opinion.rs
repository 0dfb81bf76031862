//! The second opinion: its refusals, what a table says of the same positions, mate and stalemate.

mod common;

use common::position;
use sledgewren::{second_opinion, Keyed, Man, Opinion, Refusal, Table, MOST_PLIES};

/// A position, and its second opinion within 6 plies.
const CASES: [(&str, Opinion); 13] = [
    ("Q b b3 b2 a1", Opinion::Loss(0)),
    ("Q w b3 h2 a1", Opinion::Win(1)),
    ("Q b c1 d7 a1", Opinion::Loss(2)),
    ("Q w e3 d8 f1", Opinion::Win(3)),
    ("Q b d1 b6 b1", Opinion::Loss(4)),
    ("Q w g4 f8 g6", Opinion::Win(5)),
    ("Q b c7 b1 a3", Opinion::Loss(6)),
    ("Q w g4 g6 f2", Opinion::NotWithin),
    ("R b a3 h1 a1", Opinion::Loss(0)),
    // stalemates, and a man that is taken
    ("Q b e5 b3 a1", Opinion::NotWithin),
    ("R b f6 g7 h8", Opinion::NotWithin),
    ("N b b3 c3 a1", Opinion::NotWithin),
    ("Q b h8 b2 a1", Opinion::NotWithin),
];

#[test]
fn within_six() {
    for (text, opinion) in CASES {
        assert_eq!(second_opinion(position(text), MOST_PLIES), Ok(opinion), "{text}");
    }
}

#[test]
fn no_deeper_than_asked() {
    for (text, opinion) in CASES {
        for plies in 0..=MOST_PLIES {
            let found = opinion.depth().is_some_and(|depth| depth <= plies);
            let expected = if found { opinion } else { Opinion::NotWithin };
            assert_eq!(second_opinion(position(text), plies), Ok(expected), "{text} {plies}");
        }
    }
}

#[test]
fn one_to_six_before_sixteen() {
    let keyed: [([u8; 5], Refusal); 6] = [
        ([4, 2, 64, 64, 64], Refusal::BadMan),
        ([0, 2, 64, 0, 0], Refusal::BadSide),
        ([0, 0, 64, 0, 0], Refusal::BadSquare),
        ([0, 0, 0, 0, 63], Refusal::SharedSquare),
        ([0, 0, 0, 63, 9], Refusal::KingsTouch),
        ([0, 0, 17, 9, 0], Refusal::OtherInCheck),
    ];
    for (bytes, refusal) in keyed {
        for plies in [0, MOST_PLIES, MOST_PLIES + 1, 255] {
            assert_eq!(second_opinion(Keyed::from(bytes), plies), Err(refusal), "{bytes:?}");
        }
    }
}

#[test]
fn sixteen_above_six() {
    for plies in 7..=255 {
        let asked = second_opinion(position("Q w b3 h2 a1"), plies);
        assert_eq!(asked, Err(Refusal::TooManyPlies), "{plies}");
    }
}

#[test]
fn as_the_table_says() {
    for man in Man::ALL {
        let table = Table::filled(man).unwrap();
        for number in (0..59_136).step_by(97) {
            let Ok(position) = sledgewren::Position::from_number(man, number) else { continue };
            let Ok(answer) = table.look_up(position) else { continue };
            for plies in 0..=4 {
                let expected = Opinion::of(answer.value(), plies);
                assert_eq!(second_opinion(position, plies), Ok(expected), "{position} {plies}");
            }
        }
    }
}
