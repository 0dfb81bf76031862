//! Damages the headers of sets and compares where the library and the oracle find each ending;
//! then writes every choice of endings with both.
//!
//! usage: sets [DAMAGES [SEED]]

use std::fmt::Debug;
use std::process::ExitCode;

use hostile::sequence::Sequence;
use second::set::{choices, find, header, set_length, write_set, Choice as SecondChoice};
use sledgewren::{entry, Choice, Man, Refusal};

const SEED: u64 = 2049;
const DAMAGES: usize = 1_000_000;

/// Bytes around which both look: a set of all four and some more.
const ROOM: usize = 400_000;

/// Values of a field that are near right ones or at an end of the range.
const ODD: [u32; 14] =
    [0, 1, 2, 3, 4, 5, 16, 28, 52, 59_135, 59_137, 0x7FFF_FFFF, 0x8000_0000, 0xFFFF_FFFF];

#[derive(Default)]
struct Sum {
    damages: usize,
    right: usize,
    compared: usize,
    differ: usize,
}

impl Sum {
    fn add<T: PartialEq + Debug>(&mut self, asked: impl Debug, ours: T, theirs: T) {
        self.compared += 1;
        if ours != theirs {
            self.differ += 1;
            if self.differ <= 20 {
                println!("{asked:?}: library {ours:?}, oracle {theirs:?}");
            }
        }
    }
}

/// A header, and how long the file is.
struct Damaged {
    header: Vec<u8>,
    length: usize,
}

impl Damaged {
    fn field(&mut self, sequence: &mut Sequence) -> &mut [u8] {
        let at = 4 * sequence.below(self.header.len() / 4);
        &mut self.header[at..at + 4]
    }

    fn odd_field(&mut self, sequence: &mut Sequence) {
        let value = match sequence.below(3) {
            0 => sequence.any() as u32,
            1 => 59_136 * sequence.below(5) as u32 + sequence.below(64) as u32,
            _ => ODD[sequence.below(ODD.len())],
        };
        self.field(sequence).copy_from_slice(&value.to_le_bytes());
    }

    /// A code for another, so that the rest stays right.
    fn other_code(&mut self, sequence: &mut Sequence) {
        let rows = self.header.len() / 12;
        if rows > 0 {
            self.header[4 + 12 * sequence.below(rows)] = sequence.below(6) as u8;
        }
    }

    fn exchanged_rows(&mut self, sequence: &mut Sequence) {
        let rows = self.header.len() / 12;
        if rows > 1 {
            let (one, other) = (4 + 12 * sequence.below(rows), 4 + 12 * sequence.below(rows));
            for k in 0..12 {
                self.header.swap(one + k, other + k);
            }
        }
    }

    /// Offsets from the header's end.
    fn offsets_from_the_end(&mut self) {
        let end = self.header.len() as u32;
        for at in (8..self.header.len()).step_by(12) {
            let field = &mut self.header[at..at + 4];
            let offset = u32::from_le_bytes([field[0], field[1], field[2], field[3]]);
            field.copy_from_slice(&offset.wrapping_sub(end).to_le_bytes());
        }
    }

    fn big_endian(&mut self) {
        self.header.chunks_exact_mut(4).for_each(<[u8]>::reverse);
    }

    fn one_fault(&mut self, sequence: &mut Sequence) {
        match sequence.below(12) {
            0 => {
                let at = sequence.below(self.header.len());
                self.header[at] = sequence.byte();
            }
            1 => {
                let at = sequence.below(self.header.len());
                self.header[at] ^= 1 << sequence.below(8);
            }
            2 | 3 => self.odd_field(sequence),
            4 | 5 => self.other_code(sequence),
            6 => self.exchanged_rows(sequence),
            7 => self.length = (self.length + sequence.below(25)).saturating_sub(12),
            8 => self.length = set_length([(); 4].map(|_| sequence.below(2) == 1)),
            9 => self.length = sequence.below(70),
            10 => self.offsets_from_the_end(),
            _ => self.big_endian(),
        }
    }
}

fn any_choice(sequence: &mut Sequence) -> SecondChoice {
    [(); 4].map(|_| sequence.below(2) == 1)
}

/// A right header with one to three faults, or random bytes in its place.
fn damaged(sequence: &mut Sequence) -> Damaged {
    let choice = any_choice(sequence);
    let mut file = Damaged { header: header(choice), length: set_length(choice) };
    if sequence.below(32) == 0 {
        file.header.iter_mut().for_each(|byte| *byte = sequence.byte());
    }
    for _ in 0..=sequence.below(3) {
        file.one_fault(sequence);
    }
    file
}

fn ours(set: &[u8], code: u8) -> Result<(usize, usize), u8> {
    let place = entry::set_find(set, code).map_err(Refusal::code)?;
    Ok((place.start, place.len()))
}

fn theirs(set: &[u8], code: u8) -> Result<(usize, usize), u8> {
    find(set, code).map_err(|refused| refused.0)
}

fn headers(damages: usize, sequence: &mut Sequence, sum: &mut Sum) {
    let mut bytes = vec![0; ROOM];
    for _ in 0..damages {
        let file = damaged(sequence);
        let front = file.header.len();
        bytes[..front].copy_from_slice(&file.header);
        let set = &bytes[..file.length];
        sum.damages += 1;
        for code in [0, 1, 2, 3, sequence.byte()] {
            let found = theirs(set, code);
            sum.right += (code == 0 && found != Err(14)) as usize;
            let asked = (code, set.len(), &file.header);
            sum.add(asked, ours(set, code), found);
        }
        bytes[..front].fill(0);
    }
}

fn chosen(choice: SecondChoice) -> Choice {
    Man::ALL.into_iter().filter(|&man| choice[man as usize]).collect()
}

/// Every choice written to a set of its length, and to others.
fn writers(sequence: &mut Sequence, sum: &mut Sum) {
    for choice in choices() {
        let right = set_length(choice);
        let mut lengths = vec![right, right + 1, right - 1, 0, 3, 4, 5, 59_136];
        lengths.extend((0..64).map(|_| sequence.below(ROOM)));
        for length in lengths {
            let (mut one, mut other) = (vec![165; length], vec![165; length]);
            let ours = entry::set_write(chosen(choice), &mut one).map_err(Refusal::code);
            let theirs = write_set(choice, &mut other).map_err(|refused| refused.0);
            sum.add(("written", choice, length), ours, theirs);
            sum.add(("bytes", choice, length), one == other, true);
        }
    }
}

fn run() -> Result<bool, String> {
    let mut words = std::env::args().skip(1);
    let mut number = |default: u64| match words.next() {
        None => Ok(default),
        Some(word) => word.parse().map_err(|_| format!("not a number: {word}")),
    };
    let (damages, seed) = (number(DAMAGES as u64)? as usize, number(SEED)?);
    println!("seed {seed}");
    let (mut sequence, mut sum) = (Sequence::new(seed), Sum::default());
    headers(damages, &mut sequence, &mut sum);
    println!("{} damaged headers, {} of them still right", sum.damages, sum.right);
    let so_far = sum.compared;
    writers(&mut sequence, &mut sum);
    println!("{} endings sought, {} sets written", so_far, (sum.compared - so_far) / 2);
    println!("{} compared, {} differ", sum.compared, sum.differ);
    Ok(sum.differ == 0)
}

fn main() -> ExitCode {
    match run() {
        Ok(true) => ExitCode::SUCCESS,
        Ok(false) => ExitCode::from(1),
        Err(error) => {
            eprintln!("sets: {error}");
            ExitCode::from(2)
        }
    }
}
