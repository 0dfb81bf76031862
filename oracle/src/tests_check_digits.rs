//! Self tests of the check digits.

use crate::check_digits::{check_right, read_typed, write_typed};
use crate::number::{back, NUMBERS};
use crate::position::{Refused, MEN};
use crate::selftest::{expect, Test, Truth, Verdict};

pub const TESTS: &[Test] = &[
    ("02049 is typed 0204962, and 0209462 is refused 13", clerk),
    ("of the hundred endings of any five digits exactly one is right", one_check),
    ("the writer's digits lead back to the number; it refuses 8 and 9", writer),
    ("one digit altered is refused 13, on all five digits", one_altered),
    ("two unequal neighbours exchanged are refused 13, on all five digits", exchanged),
    ("digits of another shape are refused 12", shapes),
];

fn clerk(_: &Truth) -> Verdict {
    let typed = write_typed(2049);
    expect(typed.as_deref() == Ok("0204962"), || format!("{typed:?}"))?;
    let slip = read_typed(b"0209462");
    expect(slip == Err(Refused(13)), || format!("{slip:?}"))
}

/// The right seven digits that begin with these five, found by trying all hundred.
fn right_endings(number: u64) -> Vec<u64> {
    (number * 100..number * 100 + 100).filter(|&seven| check_right(seven)).collect()
}

fn one_check(_: &Truth) -> Verdict {
    for number in 0..100_000 {
        let right = right_endings(number);
        expect(right.len() == 1, || format!("{number:05}: {right:?}"))?;
    }
    Ok(())
}

fn writer(_: &Truth) -> Verdict {
    for number in 0..NUMBERS as u64 + 5_000 {
        let typed = write_typed(number);
        for man in MEN {
            let refused = back(man.code(), number).err();
            expect(typed.as_ref().err() == refused.as_ref(), || format!("{number}: {typed:?}"))?;
        }
        let Ok(typed) = typed else { continue };
        let read = read_typed(typed.as_bytes());
        let ending = right_endings(number);
        let same = ending == [typed.parse().unwrap_or(0)];
        expect(read == Ok(number) && same, || format!("{number}: {typed}, {read:?}"))?;
    }
    let greatest = write_typed(u64::MAX);
    expect(greatest == Err(Refused(8)), || format!("{greatest:?}"))
}

/// Each five digits with their right check, as seven digits.
fn right_typed() -> impl Iterator<Item = [u8; 7]> {
    (0..100_000).filter_map(|number| {
        let seven = right_endings(number).first().copied()?;
        format!("{seven:07}").into_bytes().try_into().ok()
    })
}

fn refused_13(digits: &[u8; 7]) -> Verdict {
    let read = read_typed(digits);
    expect(read == Err(Refused(13)), || format!("{digits:?}: {read:?}"))
}

fn one_altered(_: &Truth) -> Verdict {
    for typed in right_typed() {
        for place in 0..7 {
            for digit in (b'0'..=b'9').filter(|&digit| digit != typed[place]) {
                let mut altered = typed;
                altered[place] = digit;
                refused_13(&altered)?;
            }
        }
    }
    Ok(())
}

fn exchanged(_: &Truth) -> Verdict {
    for typed in right_typed() {
        for place in (0..6).filter(|&place| typed[place] != typed[place + 1]) {
            let mut altered = typed;
            altered.swap(place, place + 1);
            refused_13(&altered)?;
        }
    }
    Ok(())
}

fn shapes(_: &Truth) -> Verdict {
    let wrong: [&[u8]; 8] =
        [b"", b"02049", b"020496", b"02049620", b"020496x", b" 204962", b"+204962", b"0204\xb2962"];
    for digits in wrong {
        let read = read_typed(digits);
        expect(read == Err(Refused(12)), || format!("{digits:?}: {read:?}"))?;
    }
    Ok(())
}
