//! The fill: mates first, then back from the positions just settled; losses are confirmed forward.

use super::bare::Bare;
use super::board::{has, one, squares, targets};
use super::moves::{byte_of, checked, mated, required, requires, spoils, Tables};
use super::numbers::{is_used, number, place, Frame, Line, Others, LARGE, SMALL};
use super::retract::{before, sources, steps_back, stood, Taken};
use super::rows;
use super::{Men, Place, KING, OFF};

/// The first depth that no byte holds.
const DEPTHS: u8 = 254;

/// Numbers are passed over so many at a time, in which only the last man's square differs; both
/// lengths of a table are multiples of it.
const ROW: usize = 64;

/// The piece that moved: its kind, where it went and what it took; its squares' numbers, before the
/// move and after another, where they lie at equal steps.
#[derive(Clone, Copy)]
struct Moved {
    kind: u8,
    to: u8,
    taken: Taken,
    line: Option<Line>,
    after: Option<Line>,
}

struct Filling<'a> {
    men: Men,
    small: [&'a [u8]; 2],
    table: &'a mut [u8],
}

fn legal_at(men: Men, n: usize) -> Option<Place> {
    let q = place(men, n);
    (is_used(men, q, n) && !checked(men, q, 1 - q.side)).then_some(q)
}

/// Is this the true table of one man?
fn accepted(kind: u8, table: &[u8]) -> bool {
    let men = Men { first: kind, second: 4, colour: 0 };
    let tables = Tables { own: table, small: [&[], &[]] };
    table
        .iter()
        .enumerate()
        .all(|(n, &byte)| byte == legal_at(men, n).map_or(0, |q| required(men, q, tables)))
}

/// The men of the side that moved: their kinds and squares.
fn movers(men: Men, q: Place) -> impl Iterator<Item = (u8, u8)> {
    [(0, men.first, q.first), (men.colour, men.second, q.second)]
        .into_iter()
        .filter(move |&(owner, _, to)| owner != q.side && to != OFF)
        .map(|(_, kind, to)| (kind, to))
}

impl Filling<'_> {
    fn tables(&self) -> Tables<'_> {
        Tables { own: self.table, small: self.small }
    }

    fn start(&mut self) {
        for (row, bytes) in self.table.chunks_exact_mut(ROW).enumerate() {
            let n = row * ROW;
            let legal = rows::legal(self.men, place(self.men, n), n);
            for (square, byte) in bytes.iter_mut().enumerate() {
                *byte = (legal >> square & 1) as u8;
            }
        }
    }

    /// The mates, which have no depth before theirs; there is none without a check.
    fn mates(&mut self) -> u32 {
        let mut settled = 0;
        for n in (0..self.table.len()).step_by(ROW) {
            let row = place(self.men, n);
            for square in squares(rows::checks(self.men, row)) {
                let n = n + square as usize;
                if self.table[n] == 1 && mated(self.men, rows::with_last(self.men, row, square)) {
                    settled += self.settle(n, 0);
                }
            }
        }
        settled
    }

    fn settle(&mut self, n: usize, k: u8) -> u32 {
        self.table[n] = 2 + k;
        1
    }

    /// The number of the place before the move from a square.
    fn number_before(&self, q: Place, moved: Moved, from: u8) -> usize {
        match moved.line {
            Some(line) => line.number(from),
            None => number(self.men, before(q, from, moved.to, moved.taken)),
        }
    }

    /// The first of these squares of a piece that was put back which spares its side the loss: a
    /// byte other than 0 stands at legal places only.
    fn saviour(&self, place: Place, k: u8, from: u8, line: Option<Line>, goals: u64) -> Option<u8> {
        squares(goals).find(|&to| {
            let n = match line {
                Some(line) => line.number(to),
                None => number(self.men, place.moved(from, to)),
            };
            self.table[n] != 0 && spoils(k, self.table[n])
        })
    }

    /// A place with a move to one of depth k - 1, k odd: if it holds 1, it is legal and won in k.
    fn win(&mut self, n: usize, k: u8) -> u32 {
        if self.table[n] == 1 {
            self.settle(n, k)
        } else {
            0
        }
    }

    /// The places before a piece's moves to one of depth k - 1, k odd.
    fn win_each(&mut self, q: Place, k: u8, moved: Moved, from: u64) -> u32 {
        squares(from).map(|from| self.win(self.number_before(q, moved, from), k)).sum()
    }

    /// The same of the king: all others stand still.
    fn win_king(&mut self, q: Place, k: u8, to: u8, taken: Taken, from: u64) -> u32 {
        let still = |square, who| if taken == who { to } else { square };
        let (x, y) = (still(q.first, Taken::First), still(q.second, Taken::Second));
        if q.side == 0 {
            let others = Bare::new(self.men, q.white, x, y);
            squares(from).map(|black| self.win(others.number(1, black), k)).sum()
        } else {
            let others = Others::new(self.men, q.black, x, y);
            squares(from).map(|white| self.win(others.number(white), k)).sum()
        }
    }

    /// The same, k even: each is lost if its other moves say so. The piece's own other moves are read
    /// first: what stands after them is the same wherever it came from, so that a square which
    /// spares its side does so from all that it is reached from, and none is read twice.
    fn lose_each(&mut self, q: Place, k: u8, moved: Moved, from: u64) -> u32 {
        let Moved { kind, to, taken, after, .. } = moved;
        let stood = stood(q, to, taken);
        let near = if kind == KING { targets(0, KING, q.king(q.side)) } else { 0 };
        let shut = stood | near | one(to);
        let (mut settled, mut seen, mut rest) = (0, 0, from);
        while let Some(from) = squares(rest).next() {
            rest &= !one(from);
            let n = self.number_before(q, moved, from);
            if self.table[n] != 1 {
                continue;
            }
            let place = before(q, from, to, taken);
            let goals = targets(stood, kind, from) & !shut & !seen;
            if let Some(square) = self.saviour(place, k, from, after, goals) {
                seen |= goals & (one(square) - 1);
                rest &= !targets(stood, kind, square);
                continue;
            }
            seen |= goals;
            if requires(self.men, place, k, self.tables()) {
                settled += self.settle(n, k);
            }
        }
        settled
    }

    /// A black king without men: White's pieces stand still, and what they attack is told once.
    fn lose_bare(&mut self, q: Place, k: u8, to: u8, taken: Taken, from: u64) -> u32 {
        let men = self.men;
        let still = |square, who| if taken == who { to } else { square };
        let bare =
            Bare::new(men, q.white, still(q.first, Taken::First), still(q.second, Taken::Second));
        let shut = bare.struck() | one(to);
        // What is known of his squares: White's pieces stand still.
        let (mut saving, mut harmless) = (0, 0);
        let tried = |from| {
            let n = bare.number(1, from);
            if self.table[n] != 1 {
                return 0;
            }
            let goals = targets(0, KING, from) & !shut;
            // A man that he might take: that byte, read first, nearly always saves him.
            let man = if has(goals, bare.first) { bare.first } else { bare.second };
            if has(goals, man) {
                let place = before(q, from, to, taken);
                let lost = !spoils(k, byte_of(men, place.moved(from, man), self.tables()))
                    && requires(men, place, k, self.tables());
                return if lost { self.settle(n, k) } else { 0 };
            }
            if goals & saving != 0 {
                return 0;
            }
            for to in squares(goals & !harmless) {
                if spoils(k, self.table[bare.number(0, to)]) {
                    saving |= one(to);
                    return 0;
                }
                harmless |= one(to);
            }
            self.settle(n, k)
        };
        squares(from).map(tried).sum()
    }

    /// A man's squares: the kings stand still, and where nothing is exchanged the numbers lie at
    /// equal steps.
    fn line(&self, frame: Frame, q: Place, to: u8, taken: Taken) -> Option<Line> {
        let still = |square, who| if taken == who { to } else { square };
        match (self.men.single(), q.first == to) {
            (true, _) => frame.line(self.men, 0, 1),
            (_, true) => frame.line(self.men, still(q.second, Taken::Second), 64),
            _ => frame.line(self.men, still(q.first, Taken::First), 1),
        }
    }

    /// The places with a move to this one that takes nothing, or the man named; k odd.
    fn win_into(&mut self, q: Place, k: u8, taken: Taken) -> u32 {
        let (occupied, to) = (q.occupied(), q.king(1 - q.side));
        let settled = self.win_king(q, k, to, taken, steps_back(q, occupied, KING, to));
        // Black has no men.
        if q.side == 0 && self.men.colour == 0 {
            return settled;
        }
        let (men, frame) = (self.men, Frame::new(1 - q.side, q.white, q.black));
        let tried = |(kind, to)| {
            let line = self.line(frame, q, to, taken);
            let moved = Moved { kind, to, taken, line, after: None };
            self.win_each(q, k, moved, steps_back(q, occupied, kind, to))
        };
        settled + movers(men, q).map(tried).sum::<u32>()
    }

    /// The same, k even.
    fn lose_into(&mut self, q: Place, k: u8, taken: Taken) -> u32 {
        let to = q.king(1 - q.side);
        // Black has no men.
        if q.side == 0 && self.men.colour == 0 {
            return self.lose_bare(q, k, to, taken, steps_back(q, q.occupied(), KING, to));
        }
        let king = Moved { kind: KING, to, taken, line: None, after: None };
        let men = self.men;
        let settled = self.lose_each(q, k, king, sources(men, q, KING, to, taken));
        let tried = |(kind, to)| {
            let from = sources(men, q, kind, to, taken);
            if from == 0 {
                return 0;
            }
            let line = |side| self.line(Frame::new(side, q.white, q.black), q, to, taken);
            let moved = Moved { kind, to, taken, line: line(1 - q.side), after: line(q.side) };
            self.lose_each(q, k, moved, from)
        };
        settled + movers(men, q).map(tried).sum::<u32>()
    }

    fn try_into(&mut self, q: Place, k: u8, taken: Taken) -> u32 {
        if k % 2 == 1 {
            self.win_into(q, k, taken)
        } else {
            self.lose_into(q, k, taken)
        }
    }

    /// Captures taken back from a lent table, of which one man is left.
    fn try_lent(&mut self, k: u8, table: &[u8], taken: Taken) -> u32 {
        let (men, alone) = (self.men, Men { first: 0, second: 4, colour: 0 });
        let mut settled = 0;
        for (n, _) in table.iter().enumerate().filter(|&(_, &byte)| byte == 1 + k) {
            let lone = place(alone, n);
            // The man left: the first, who is White's, or the second, who may be Black's.
            let (q, lost) = match taken {
                Taken::Second => (lone, men.colour),
                _ if men.colour == 0 => (Place { first: OFF, second: lone.first, ..lone }, 0),
                _ => {
                    let (side, white, black) = (1 - lone.side, lone.black, lone.white);
                    (Place { side, white, black, first: OFF, second: lone.first }, 0)
                }
            };
            // The man taken was of the side that is to move now.
            if q.side == lost {
                settled += self.try_into(q, k, taken);
            }
        }
        settled
    }

    fn pass(&mut self, k: u8) -> u32 {
        let mut settled = 0;
        if !self.men.single() {
            let [first, second] = self.small;
            settled += self.try_lent(k, first, Taken::Second);
            if !self.men.alike() {
                settled += self.try_lent(k, second, Taken::First);
            }
        }
        for run in (0..self.table.len()).step_by(ROW) {
            // No way out early, so that the compiler compares many at once.
            let held =
                self.table[run..run + ROW].iter().fold(false, |held, &byte| held | (byte == 1 + k));
            for n in if held { run..run + ROW } else { 0..0 } {
                if self.table[n] == 1 + k {
                    settled += self.try_into(place(self.men, n), k, Taken::Nothing);
                }
            }
        }
        settled
    }

    fn too_deep(&self) -> bool {
        (0..self.table.len()).any(|n| {
            self.table[n] == 1 && requires(self.men, place(self.men, n), DEPTHS, self.tables())
        })
    }

    /// The greatest depth, or refusal 10.
    fn run(&mut self) -> Result<Option<u8>, u8> {
        let lent = if self.men.single() { &[][..] } else { &self.small[..] };
        let deepest = lent.iter().flat_map(|table| table.iter()).copied().max().unwrap_or(0);
        self.start();
        let mut greatest = None;
        for k in 0..DEPTHS {
            let settled = if k == 0 { self.mates() } else { self.pass(k) };
            if settled > 0 {
                greatest = Some(k);
            } else if deepest < 2 + k {
                return Ok(greatest);
            }
        }
        if self.too_deep() {
            self.table.fill(0);
            return Err(10);
        }
        Ok(greatest)
    }
}

/// `sledgewren_fill_back`: the word of an ending, the lent tables, the table; the answer's word.
pub fn fill(ending: u32, small: [&[u8]; 2], table: &mut [u8]) -> u32 {
    let [first, second, rivals, none] = ending.to_le_bytes();
    let men = match second {
        0 => Men { first, second: 4, colour: 0 },
        _ => Men { first, second: second - 1, colour: rivals },
    };
    let known = first < 4 && (second == 0 || (first < second && second <= 4));
    if !known || none != 0 || rivals > 1 || (second == 0 && rivals == 1) {
        return 1;
    }
    let fits = match second {
        0 => table.len() == SMALL,
        _ => table.len() == LARGE && small.iter().all(|table| table.len() == SMALL),
    };
    if !fits {
        return 7;
    }
    if !men.single() && !(accepted(men.first, small[0]) && accepted(men.second, small[1])) {
        return 17;
    }
    match (Filling { men, small, table }).run() {
        Ok(Some(depth)) => 1 << 8 | (depth as u32) << 16,
        Ok(None) => 0,
        Err(refusal) => refusal as u32,
    }
}
