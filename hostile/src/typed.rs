//! Number lines: right ones, the old form, every ending, and slips of the hand.

/// The one check from 02 to 98 that makes a number right, found by trying them.
fn right_check(number: usize) -> usize {
    (2..=98).find(|check| (100 * number + check) % 97 == 1).unwrap_or(0)
}

fn line(man: u8, digits: String) -> Vec<u8> {
    let mut line = vec![man];
    line.extend(format!(" # {digits}").bytes());
    line
}

/// A number with the check given, right or wrong.
fn checked_line(man: u8, number: usize, check: usize) -> Vec<u8> {
    line(man, format!("{number:05}{check:02}"))
}

/// A number with its right check.
pub fn right_line(man: u8, number: usize) -> Vec<u8> {
    checked_line(man, number, right_check(number))
}

/// The old form: nine bytes, no check.
pub fn old_line(man: u8, number: usize) -> Vec<u8> {
    line(man, format!("{number:05}"))
}

/// A number with each of the hundred checks.
pub fn endings(man: u8, number: usize) -> impl Iterator<Item = Vec<u8>> {
    (0..100).map(move |check| checked_line(man, number, check))
}

/// Every line that differs from a right one by one digit, or by two unequal neighbours exchanged.
pub fn slips_of_the_hand(man: u8, number: usize) -> Vec<Vec<u8>> {
    let (right, mut lines) = (right_line(man, number), Vec::new());
    for place in 4..right.len() {
        for digit in (b'0'..=b'9').filter(|&digit| digit != right[place]) {
            let mut line = right.clone();
            line[place] = digit;
            lines.push(line);
        }
        if right.get(place + 1).is_some_and(|&next| next != right[place]) {
            let mut line = right.clone();
            line.swap(place, place + 1);
            lines.push(line);
        }
    }
    lines
}
