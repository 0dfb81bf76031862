//! Self tests of the set, one file for all endings.

use crate::number::NUMBERS;
use crate::position::{Refused, MEN};
use crate::samples::Sequence;
use crate::selftest::{expect, Test, Truth, Verdict};
use crate::set::{choices, find, header, part, set_length, write_set, Choice};

pub const TESTS: &[Test] = &[
    ("a set has 4 bytes with no table and 236,596 with four", lengths),
    ("the header of rook and knight, byte for byte", one_header),
    ("the writer refuses 14 for any other length and writes nothing", writer_refusals),
    ("what the writer leaves reads back as the true tables; others are refused 15", read_back),
    ("every byte of every header altered is read as the rules say", altered_headers),
    ("files cut, grown or of random fields are read as the rules say", other_files),
];

fn lengths(_: &Truth) -> Verdict {
    let found: Vec<usize> = choices().map(set_length).collect();
    let due = |choice: Choice| 4 + 59_148 * choice.iter().filter(|&&yes| yes).count();
    let dues: Vec<usize> = choices().map(due).collect();
    let ends = (found.first(), found.last()) == (Some(&4), Some(&236_596));
    expect(found == dues && found.len() == 16 && ends, || format!("{found:?}"))
}

fn one_header(_: &Truth) -> Verdict {
    // 28 = 0x1c; 59,136 = 0xe700; 28 + 59,136 = 0xe71c.
    let due = [
        2, 0, 0, 0, 1, 0, 0, 0, 0x1c, 0, 0, 0, 0, 0xe7, 0, 0, 3, 0, 0, 0, 0x1c, 0xe7, 0, 0, 0,
        0xe7, 0, 0,
    ];
    let found = header([false, true, false, true]);
    expect(found == due, || format!("{found:?}"))
}

fn writer_refusals(_: &Truth) -> Verdict {
    for choice in choices() {
        let needed = set_length(choice);
        let others = choices().map(set_length);
        for length in others.chain([0, 3, needed - 1, needed + 1]).filter(|&n| n != needed) {
            let mut set = vec![77; length];
            let refused = write_set(choice, &mut set) == Err(Refused(14));
            let alone = set.iter().all(|&byte| byte == 77);
            expect(refused && alone, || format!("{choice:?}, {length} bytes"))?;
        }
    }
    Ok(())
}

fn read_back(truth: &Truth) -> Verdict {
    for choice in choices() {
        let mut set = vec![165; set_length(choice)];
        let written = write_set(choice, &mut set);
        expect(written == Ok(()), || format!("{choice:?}: {written:?}"))?;
        for man in MEN {
            let due = match choice[man as usize] {
                true => Ok(truth.table(man)),
                false => Err(Refused(15)),
            };
            let right = part(&set, man.code()) == due;
            expect(right, || format!("{} of {choice:?}", man.name()))?;
        }
        for code in [4, 5, 128, 255] {
            let found = find(&set, code);
            expect(found == Err(Refused(1)), || format!("code {code}: {found:?}"))?;
        }
    }
    Ok(())
}

/// Four bytes, the lowest first, at the front of the rest; none if the file ends before.
fn field(rest: &mut &[u8]) -> Option<u64> {
    let (four, after) = rest.split_at_checked(4)?;
    *rest = after;
    Some(four.iter().rev().fold(0, |total, &byte| total * 256 + byte as u64))
}

/// 02's words followed field by field: the codes with their offsets, or none for refusal 14.
fn plainly_read(set: &[u8]) -> Option<Vec<(u64, u64)>> {
    let mut rest = set;
    let count = field(&mut rest)?;
    let (first, table) = (4 + 12 * count, NUMBERS as u64);
    let mut held: Vec<(u64, u64)> = Vec::new();
    for row in 0..count {
        let (code, offset) = (field(&mut rest)?, field(&mut rest)?);
        let rising = held.last().is_none_or(|&(before, _)| before < code);
        let placed = offset == first + row * table && field(&mut rest)? == table;
        if !rising || code > 3 || !placed {
            return None;
        }
        held.push((code, offset));
    }
    (rest.len() as u64 == count * table).then_some(held)
}

/// Reading every code of these bytes gives what the plain reading gives.
fn reads_plainly(set: &[u8]) -> Verdict {
    let plain = plainly_read(set);
    for code in 0..=5u8 {
        let held = plain.as_ref().map(|held| held.iter().find(|&&(at, _)| at == code as u64));
        let due = match held {
            _ if code > 3 => Err(Refused(1)),
            None => Err(Refused(14)),
            Some(None) => Err(Refused(15)),
            Some(Some(&(_, offset))) => Ok((offset as usize, NUMBERS)),
        };
        let found = find(set, code);
        expect(found == due, || format!("{} bytes, code {code}: {found:?}", set.len()))?;
    }
    Ok(())
}

/// A set with its header alone filled in: reading does not look at the tables.
fn bare_set(choice: Choice) -> Vec<u8> {
    let mut set = header(choice);
    set.resize(set_length(choice), 0);
    set
}

fn altered_headers(_: &Truth) -> Verdict {
    for choice in choices() {
        let mut set = bare_set(choice);
        reads_plainly(&set)?;
        for place in 0..header(choice).len() {
            let right = set[place];
            for other in (0..=255).filter(|&byte| byte != right) {
                set[place] = other;
                reads_plainly(&set)?;
            }
            set[place] = right;
        }
    }
    Ok(())
}

fn other_files(_: &Truth) -> Verdict {
    let mut sequence = Sequence(14);
    for choice in choices() {
        for length in choices().map(set_length) {
            for change in [-13, -12, -4, -1, 0, 1, 4, 12] {
                let mut set = bare_set(choice);
                set.resize(length.saturating_add_signed(change), 0);
                reads_plainly(&set)?;
            }
        }
    }
    for length in (0..60).chain([59_148, 59_152, 118_300, 236_596]) {
        for _ in 0..200 {
            let mut set: Vec<u8> = vec![0; length];
            for place in (0..length.min(52)).step_by(4) {
                set[place] = [0, 1, 2, 3, 4, 16, 28, 40, 52][sequence.below(9) as usize % 9];
            }
            reads_plainly(&set)?;
        }
    }
    reads_plainly(&[255; 4])?;
    reads_plainly(&vec![255; 59_152])
}
