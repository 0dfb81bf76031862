//! The generated lines: both forms, near misses of both, random bytes, very long lines.
//!
//! A desk fills a table whenever the man changes, so the lines come in four blocks of one man
//! each, of either colour; only a short part changes men from line to line.

use crate::sequence::Sequence;
use crate::typed::{endings, old_line, right_line, slips_of_the_hand};

const MEN: &[u8; 4] = b"QRBN";

/// White's and Black's, in an order in which the man changes from each to the next.
const CHANGES: &[u8; 8] = b"QrBnqRbN";

const SIDES: &[u8; 2] = b"wb";

/// Bytes that stand in right lines, and a few that nearly do.
const NEAR: &[u8] = b"QRBNKPqrbnkpwbWBabcdefghi012345678910#  \t\r\0-";

/// How many lines of each kind a block has.
pub struct Amount {
    pub squares: usize,
    pub near_positions: usize,
    pub near_numbers: usize,
    pub random: usize,
    pub near_letters: usize,
    /// Numbers from 0 on, each with its right check and each in the old form.
    pub numbers: usize,
    /// Numbers with each of the hundred checks.
    pub endings: usize,
    /// Numbers with every slip of the hand.
    pub slips: usize,
    /// All placements on the 28 squares of the edge, or none.
    pub edges: bool,
}

/// More than 2,000,000 lines in four blocks.
pub const FULL: Amount = Amount {
    squares: 25_000,
    near_positions: 50_000,
    near_numbers: 20_000,
    random: 10_000,
    near_letters: 20_000,
    numbers: 100_000,
    endings: 500,
    slips: 2500,
    edges: true,
};

/// A part of it, for desks fed a few bytes at a time.
pub const SHORT: Amount = Amount {
    squares: 500,
    near_positions: 1000,
    near_numbers: 500,
    random: 500,
    near_letters: 500,
    numbers: 250,
    endings: 5,
    slips: 10,
    edges: false,
};

/// The input as it grows.
pub struct Input {
    pub bytes: Vec<u8>,
    pub lines: usize,
    sequence: Sequence,
}

/// A man's two letters: White's and Black's.
fn letters(man: u8) -> [u8; 2] {
    [man, man.to_ascii_lowercase()]
}

pub fn position_line(man: u8, side: u8, squares: [usize; 3]) -> Vec<u8> {
    let mut line = vec![man, b' ', side];
    for square in squares {
        line.extend([b' ', b'a' + (square % 8) as u8, b'1' + (square / 8 % 8) as u8]);
    }
    line
}

fn edge_squares() -> Vec<usize> {
    (0..64)
        .filter(|square| [0, 7].contains(&(square % 8)) || [0, 7].contains(&(square / 8)))
        .collect()
}

impl Input {
    pub fn new(seed: u64) -> Input {
        Input { bytes: Vec::new(), lines: 0, sequence: Sequence::new(seed) }
    }

    /// The whole input: four blocks, very long lines, changes of man, and a last line without
    /// its newline.
    pub fn generate(seed: u64, amount: &Amount) -> Input {
        let mut input = Input::new(seed);
        for &man in MEN {
            input.block(man, amount);
        }
        for length in LENGTHS {
            input.long_lines(length);
        }
        for k in 0..48 {
            let squares = input.squares();
            input.add(position_line(CHANGES[k % 8], SIDES[k / 8 % 2], squares));
        }
        input.add(b"Q w b3 h2 a1".to_vec());
        input.bytes.pop();
        input
    }

    /// Adds a line; a newline within it becomes a zero byte.
    fn add(&mut self, mut line: Vec<u8>) {
        for byte in line.iter_mut().filter(|byte| **byte == b'\n') {
            *byte = 0;
        }
        self.bytes.append(&mut line);
        self.bytes.push(b'\n');
        self.lines += 1;
    }

    fn squares(&mut self) -> [usize; 3] {
        [self.sequence.below(64), self.sequence.below(64), self.sequence.below(64)]
    }

    fn any_position(&mut self, man: u8) -> Vec<u8> {
        let (letter, side) = (self.sequence.one_of(&letters(man)), self.sequence.one_of(SIDES));
        position_line(letter, side, self.squares())
    }

    /// Black's letter is none on a number line: one in eight has it.
    fn any_number(&mut self, man: u8) -> Vec<u8> {
        let black = self.sequence.below(8) == 0;
        let number = self.sequence.below(100_000);
        right_line(letters(man)[black as usize], number)
    }

    fn block(&mut self, man: u8, amount: &Amount) {
        if amount.edges {
            self.edges(man);
        }
        for _ in 0..amount.squares {
            let line = self.any_position(man);
            self.add(line);
        }
        self.numbers(man, amount);
        self.every_byte(man);
        for _ in 0..amount.near_positions {
            let line = self.any_position(man);
            self.near(line, man);
        }
        for _ in 0..amount.near_numbers {
            let line = self.any_number(man);
            self.near(line, man);
        }
        for _ in 0..amount.random {
            let length = self.sequence.below(31);
            let line = (0..length).map(|_| self.sequence.byte()).collect();
            self.add(line);
        }
        for _ in 0..amount.near_letters {
            let length = self.sequence.below(16);
            let line = (0..length).map(|_| self.sequence.one_of(NEAR)).collect();
            self.add(line);
        }
    }

    /// Number lines of each kind.
    fn numbers(&mut self, man: u8, amount: &Amount) {
        for number in 0..amount.numbers {
            self.add(right_line(man, number));
            self.add(old_line(man, number));
        }
        for _ in 0..amount.endings {
            let number = self.sequence.below(100_000);
            for letter in letters(man) {
                endings(letter, number).for_each(|line| self.add(line));
            }
        }
        for _ in 0..amount.slips {
            let number = self.sequence.below(100_000);
            slips_of_the_hand(man, number).into_iter().for_each(|line| self.add(line));
        }
    }

    /// All placements of the three men on the edge, both sides, the man of either colour.
    fn edges(&mut self, man: u8) {
        let edge = edge_squares();
        for letter in letters(man) {
            for side in SIDES {
                for &white in &edge {
                    for &square in &edge {
                        for &black in &edge {
                            self.add(position_line(letter, *side, [white, square, black]));
                        }
                    }
                }
            }
        }
    }

    /// Every byte in every place of a right line of each form and colour.
    fn every_byte(&mut self, man: u8) {
        let [white, black] = letters(man);
        let (side, squares) = (self.sequence.one_of(SIDES), self.squares());
        let positions = [white, black].map(|letter| position_line(letter, side, squares));
        let numbers = [white, black].map(|letter| right_line(letter, 2049));
        for line in positions.into_iter().chain(numbers) {
            for place in 0..line.len() {
                for byte in 0..=255 {
                    let mut changed = line.clone();
                    changed[place] = byte;
                    self.add_of(changed, man);
                }
            }
        }
    }

    /// Adds a line unless it would have the desk fill another man's table.
    fn add_of(&mut self, line: Vec<u8>, man: u8) {
        let named = line.first().map_or(0, u8::to_ascii_uppercase);
        let other = line.len() == 12 && named != man && MEN.contains(&named);
        if !other {
            self.add(line);
        }
    }

    /// A line with one or two small faults.
    fn near(&mut self, mut line: Vec<u8>, man: u8) {
        for _ in 0..=self.sequence.below(2) {
            let place = self.sequence.below(line.len());
            match self.sequence.below(7) {
                0 => line[place] = self.sequence.byte(),
                1 => line[place] = self.sequence.one_of(NEAR),
                2 => line[place] ^= 1 << self.sequence.below(8),
                3 => line.insert(place, self.sequence.one_of(NEAR)),
                4 => line.push(self.sequence.one_of(NEAR)),
                5 => line[place..].rotate_left(1),
                _ => drop(line.remove(place)),
            }
        }
        self.add_of(line, man);
    }

    /// Lines of one length, each beginning as a right one.
    fn long_lines(&mut self, length: usize) {
        for start in [&b"Q w b3 h2 a1"[..], b"Q # 0204962", b""] {
            for fill in [b' ', 0, b'1', 255] {
                let mut line = start.to_vec();
                line.resize(length, fill);
                self.add(line);
            }
        }
    }
}

/// Lengths about the sizes of common buffers, up to a million bytes.
const LENGTHS: [usize; 17] = [
    13, 14, 16, 255, 256, 257, 1023, 4095, 4096, 4097, 8192, 65_535, 65_536, 65_537, 131_072,
    1_000_000, 1_048_577,
];

/// Whole inputs of a few bytes: no line, no last newline, no text.
pub const TINY: &[&[u8]] = &[
    b"",
    b"\n",
    b"\n\n",
    b"\n\n\nQ",
    b"\r\n",
    b" ",
    b"\0",
    b"\0\n\0",
    b"\xff",
    b"Q",
    b"Q # 0204962",
    b"Q # 0204962\n",
    b"Q # 0204962\n\n",
    b"Q # 0204962\r\n",
    b"Q # 0204962\nQ # 020496",
    b"Q # 02049\nQ # 0209462\nP # 0209462\nQ # 0006500\nQ # 0000001\nQ # 0003299",
    b"Q # 5912733\nN # 5912830\nB # 5913606\nR # 9999925\nP # 0000098",
    b"q # 0204962\nq # 0209462\nn # 02049\nr # 9999925\nb # 0205641",
    b"r w a1 h1 a3",
    b"q b a1 h2 b3\nQ w b3 h2 a1\nq w a1 b2 h8\nq b a1 b2 b3\nk w b3 h2 a1\np w b3 h2 a1",
    b"R b a3 h1 a1",
    b"R b a3 h1 a1\n",
    b"R b a3 h1 a1\nR",
    b"R b a3 h1 a1\r",
    b"R b a3 h1 a1 \n",
    b"N w a1 b1 h8\nB w a1 b1 h8\nN w a1 b1 h8",
    b"\xef\xbb\xbfQ w b3 h2 a1\n",
    b"Q w b3 h2 a1\x1a",
];
