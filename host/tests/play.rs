//! Moves played: every listed one, captures, moves that are not legal, refusals.

mod common;

use common::position;
use sledgewren::{entry, Keyed, Man, Played, Position, Refusal, Side, Square};

fn play(text: &str, chosen: &str) -> Result<Played, Refusal> {
    position(text).play(chosen.parse().expect("a move"))
}

fn at(text: &str) -> Result<Played, Refusal> {
    Ok(Played::At(position(text)))
}

#[test]
fn each_piece() {
    assert_eq!(play("Q w b3 h2 a1", "h2a2"), at("Q b b3 a2 a1"));
    assert_eq!(play("Q w b3 h2 a1", "b3c3"), at("Q b c3 h2 a1"));
    assert_eq!(play("R b e3 h2 e5", "e5d5"), at("R w e3 h2 d5"));
    assert_eq!(play("q b a1 h2 b3", "h2a2"), at("q w a1 a2 b3"));
    assert_eq!(play("n w a1 h2 c3", "a1b1"), at("n b b1 h2 c3"));
}

#[test]
fn bare_kings() {
    let square = |text: &str| text.parse::<Square>().unwrap();
    let taken = |side, white: &str, black: &str| {
        Ok(Played::BareKings { side, white_king: square(white), black_king: square(black) })
    };
    assert_eq!(play("Q b h8 b2 a1", "a1xb2"), taken(Side::White, "h8", "b2"));
    assert_eq!(
        play("Q b h8 b2 a1", "a1b2"),
        taken(Side::White, "h8", "b2"),
        "the mark is not asked"
    );
    assert_eq!(play("r w a1 b2 h8", "a1xb2"), taken(Side::Black, "b2", "h8"));
}

#[test]
fn not_legal() {
    for chosen in ["h2h2", "h2a1", "b3a2", "a1a2", "c3c4", "h2b3"] {
        assert_eq!(play("Q w b3 h2 a1", chosen), Ok(Played::NotLegal), "{chosen}");
    }
    let keyed = Keyed::from(position("Q w b3 h2 a1"));
    for (from, to) in [(15, 64), (64, 8), (255, 255), (15, 255)] {
        assert_eq!(entry::play(keyed, from, to, 0), Ok(None), "{from} {to}");
    }
    // A legal move's squares, and a piece that nothing becomes.
    for becomes in 1..=255 {
        assert_eq!(entry::play(keyed, 15, 8, becomes), Ok(None), "{becomes}");
    }
}

#[test]
fn refusals() {
    let cases = [
        ([5, 0, 17, 15, 0], Refusal::BadMan),
        ([0, 2, 17, 15, 0], Refusal::BadSide),
        ([0, 0, 64, 15, 0], Refusal::BadSquare),
        ([0, 0, 17, 17, 0], Refusal::SharedSquare),
        ([0, 0, 9, 15, 0], Refusal::KingsTouch),
        ([0, 0, 17, 9, 0], Refusal::OtherInCheck),
    ];
    for (keyed, refusal) in cases {
        assert_eq!(entry::play(keyed, 15, 8, 0), Err(refusal), "{keyed:?}");
    }
}

/// Every listed move of every third number is played, and leaves a legal position with the other
/// side to move, or bare kings.
#[test]
fn listed_moves() {
    for man in Man::ALL {
        for number in (0..59_136).step_by(3) {
            let Ok(before) = Position::from_number(man, number) else { continue };
            let Ok(moves) = before.moves() else { continue };
            for &chosen in &moves {
                match before.play(chosen).unwrap() {
                    Played::At(next) => {
                        assert!(!chosen.takes && next.count().is_ok(), "{before} {chosen}");
                        assert_eq!((next.man, next.side), (man, before.side.other()));
                    }
                    Played::BareKings { side, .. } => assert!(chosen.takes && side == Side::White),
                    Played::NotLegal => panic!("{before} {chosen}"),
                }
            }
        }
    }
}

/// The library that is linked is of this crate's version.
#[test]
fn version() {
    let text = entry::version().map(|part| part.to_string()).join(".");
    assert_eq!(text, env!("CARGO_PKG_VERSION"));
}
