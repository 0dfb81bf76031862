//! Typed numbers: the writer, what its digits lead back to, and slips of the hand.

use sledgewren::{entry, Desk, Man, Position, Refusal, Typed};

#[test]
fn the_requests_own_number() {
    let typed = Typed::of(2049).unwrap();
    assert_eq!(typed.to_string(), "0204962");
    assert_eq!((typed.number(), typed.as_str()), (2049, "0204962"));
    assert_eq!(typed.line(Man::Queen), "Q # 0204962");
    assert_eq!(format!("[{typed:>9}] [{typed:<9}]"), "[  0204962] [0204962  ]");
    assert_eq!(Desk::new().answer(b"Q # 0209462").text(), "refused 13");
}

#[test]
fn every_number_is_written_or_refused_as_numbering_back_does() {
    for number in (0..60_000).chain([65_536 + 2049, 1 << 31, u32::MAX]) {
        for man in Man::ALL {
            let refused = entry::position(man, number).err();
            assert_eq!(Typed::of(number).err(), refused, "{number}");
        }
    }
    assert_eq!(Typed::of(2056), Err(Refusal::NumberUnused));
    assert_eq!(Typed::of(59_127).unwrap().to_string(), "5912733");
    assert_eq!(Typed::of(59_136), Err(Refusal::NumberTooHigh));
}

#[test]
fn every_written_number_leads_back() {
    let mut desk = Desk::new();
    for number in 0..59_136 {
        let Ok(typed) = Typed::of(number) else { continue };
        assert_eq!(&typed.to_string()[..5], format!("{number:05}"));
        for man in Man::ALL {
            let position = Position::from_number(man, number).unwrap();
            let squares = position.to_string()[2..].to_string();
            assert_eq!(desk.answer(typed.line(man).as_bytes()).text(), squares);
            assert_eq!(position.typed(), Ok(typed));
        }
    }
    assert_eq!(desk.held(), None);
}

#[test]
fn one_ending_is_right() {
    let mut desk = Desk::new();
    for number in [0, 32, 65, 2049, 2056, 59_127, 59_136, 99_999] {
        let right: Vec<u32> = (0..100)
            .filter(|check| {
                let line = format!("Q # {number:05}{check:02}");
                desk.answer(line.as_bytes()).text() != "refused 13"
            })
            .collect();
        assert_eq!(right.len(), 1, "{number}: {right:?}");
        assert!((2..=98).contains(&right[0]));
    }
}

/// Every line that differs from a right one by one digit, or by two unequal neighbours.
fn slips_of_the_hand(right: &str) -> Vec<Vec<u8>> {
    let (right, mut lines) = (right.as_bytes(), Vec::new());
    for place in 4..11 {
        for digit in (b'0'..=b'9').filter(|&digit| digit != right[place]) {
            let mut line = right.to_vec();
            line[place] = digit;
            lines.push(line);
        }
        if place < 10 && right[place] != right[place + 1] {
            let mut line = right.to_vec();
            line.swap(place, place + 1);
            lines.push(line);
        }
    }
    lines
}

#[test]
fn slips_of_the_hand_are_refused() {
    let mut desk = Desk::new();
    for number in (0..59_136).step_by(97) {
        let Ok(typed) = Typed::of(number) else { continue };
        for line in slips_of_the_hand(&typed.line(Man::Rook)) {
            assert_eq!(desk.answer(&line).text(), "refused 13", "{}", line.escape_ascii());
        }
    }
}
