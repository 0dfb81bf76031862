//! A lone pawn beside the oracle: numbers, moves listed and played, look-ups, refusals; whole answers.

use sledgewren::{ffi, Desk, POCKET_BYTES};

use crate::calls::Tally;
use crate::lent::{self, a_man, Given, NONE, PAWN, PAWN_BYTES, SMALL_BYTES};
use crate::pawn_due;
use crate::sequence::Sequence;
use crate::two::{compare_ending, compare_list, compare_look_up, compare_number};
use crate::words::compare_plays;

/// Counts beyond those that a caller may key.
const BEYOND: [u32; 5] = [100, 101, 255, 256, u32::MAX];

/// Positions of each value and depth, and of each refusal, that are looked up at every count.
const EACH: u64 = 4;

/// Calls of random words.
const CALLS: usize = 1_000_000;

/// The tables that a pawn's ending is looked up in: its own, and the four small ones in one run.
#[derive(Clone, Copy)]
pub struct Tables<'a> {
    pub own: &'a [u8],
    pub run: &'a [u8],
}

impl<'a> Tables<'a> {
    /// The small tables of a pawn's calls; the second is not read.
    pub fn lent(self) -> lent::Small<'a> {
        [self.run, &[]]
    }

    /// The table of one kind.
    fn of_kind(self, kind: u8) -> &'a [u8] {
        match kind {
            0..=3 => pawn_due::parts(self.run)[kind as usize],
            _ => self.own,
        }
    }
}

/// What the look-ups said, so that none of it goes uncompared unseen.
#[derive(Default, Debug)]
pub struct Slips {
    pub wins: u64,
    pub losses: u64,
    pub draws: u64,
    pub promotions: u64,
    pub marked: u64,
    pub refused: u64,
    pub refused_18: u64,
    pub refused_19: u64,
    pub cases: u64,
}

impl Slips {
    fn add(&mut self, word: u64) {
        let [refusal, value, _, bits, _, _, _, becomes] = word.to_le_bytes();
        self.wins += (value == 1) as u64;
        self.losses += (value == 2) as u64;
        self.draws += (value == 3) as u64;
        self.promotions += (becomes > 0) as u64;
        self.marked += (bits >> 1 & 1) as u64;
        self.refused += (refusal > 0) as u64;
        self.refused_18 += (refusal == 18) as u64;
        self.refused_19 += (refusal == 19) as u64;
    }

    fn compare(&mut self, given: Given, count: u32, tables: Tables, tally: &mut Tally) {
        compare_look_up(given, count, tables.lent(), tables.own, tally);
        self.add(lent::look_up(given, count, tables.lent(), tables.own));
    }
}

fn pawn_on(colour: u8, side: u8, [white, square, black]: [u8; 3]) -> Given {
    Given { side, white, black, first: a_man(PAWN as u8, colour, square), second: 0 }
}

/// Either colour, both sides and all squares, ranks 1 and 8 and one square too high among them.
fn every_board() -> impl Iterator<Item = Given> {
    let squares = (0..65u8).flat_map(|white| {
        (0..65u8).flat_map(move |square| (0..65u8).map(move |black| [white, square, black]))
    });
    squares.flat_map(|squares| (0..4).map(move |sides: u8| pawn_on(sides / 2, sides % 2, squares)))
}

/// Every board: its number, its moves listed and played, and its slip at one count or another.
pub fn boards(tables: Tables, sequence: &mut Sequence, tally: &mut Tally) -> Slips {
    let mut slips = Slips::default();
    for given in every_board() {
        compare_number(given, tally);
        compare_list(given, tally);
        compare_plays(given, sequence, tally);
        slips.compare(given, sequence.below(104) as u32, tables, tally);
    }
    slips
}

/// Some boards of each value, depth and refusal at every count: the slip stays and is never marked.
pub fn counts(tables: Tables, tally: &mut Tally) -> Slips {
    let mut slips = Slips::default();
    let mut seen = [[0; 256]; 4];
    for given in every_board() {
        let word = lent::look_up(given, 0, tables.lent(), tables.own);
        let [refusal, value, depth, ..] = word.to_le_bytes();
        let times: &mut u64 = &mut seen[value as usize & 3][depth.max(refusal) as usize];
        *times += 1;
        slips.cases += (*times == 1) as u64;
        if *times <= EACH {
            let counts = (0..100).chain(BEYOND);
            counts.for_each(|count| slips.compare(given, count, tables, tally));
        }
    }
    slips
}

/// Every number back, and those that are too high; each used number is its position's.
pub fn numbers(tally: &mut Tally) -> u64 {
    let high = (0..32).flat_map(|bit| [(1u32 << bit) - 1, 1 << bit, (1 << bit) + 1]);
    let mut used = 0;
    for number in (0..PAWN_BYTES as u32 + 1_000).chain(high).chain([u32::MAX]) {
        let word = lent::position(PAWN, number);
        tally.add("position's word", &number, word, pawn_due::position(number));
        let [refusal, side, white, square, black, ..] = word.to_le_bytes();
        if refusal == 0 {
            used += 1;
            let given = pawn_on(0, side, [white, square, black]);
            tally.add("number of its position", &given, lent::number(given), number);
        }
    }
    used
}

/// Words that are most often right: a pawn alone, a piece, both, squares up to 70.
fn random_given(sequence: &mut Sequence) -> Given {
    let mut byte = |right: usize, wide: usize| match sequence.below(32) {
        0 => sequence.byte(),
        1 | 2 => sequence.below(wide) as u8,
        _ => sequence.below(right) as u8,
    };
    let [side, white, black] = [byte(2, 4), byte(64, 71), byte(64, 71)];
    let mut word = |often: u8| {
        let kind = if byte(3, 3) > 0 { PAWN as u8 } else { byte(7, 7) };
        let square = if byte(4, 4) > 0 { 8 + byte(48, 71) % 96 } else { byte(64, 71) };
        let there = if byte(12, 12) == 0 { byte(2, 255) } else { often };
        u32::from_le_bytes([kind, byte(2, 4), square, there])
    };
    let (first, second) = (word(1), word(0));
    Given { side, white, black, first, second }
}

/// The parts that keep to one man refuse a pawn 1: pocket look-up and second opinion.
fn compare_refusing(given: Given, pocket: &[u8], tally: &mut Tally) {
    let Given { side, white, black, first, second } = given;
    if first as u8 as u32 != PAWN {
        return;
    }
    let (start, len) = (pocket.as_ptr(), pocket.len());
    // SAFETY: the slice's pointer leads to as many bytes as its length says.
    let told =
        unsafe { ffi::sledgewren_pocket_look_up(side, white, black, first, second, start, len) };
    tally.add("pocket look-up's word", &given, told, 1);
    // SAFETY: no pointers.
    let told = unsafe { ffi::sledgewren_second_opinion(side, white, black, first, second, 1) };
    tally.add("second opinion's word", &given, told, 1);
}

/// Random words to all functions that take a position: how often each refusal came at look-up.
pub fn words(tables: Tables, sequence: &mut Sequence, tally: &mut Tally) -> [u64; 20] {
    let (pocket, mut refusals) = ([0; POCKET_BYTES], [0; 20]);
    for _ in 0..CALLS {
        let given = random_given(sequence);
        let table = tables.of_kind(given.first as u8);
        let count = if sequence.below(8) == 0 { sequence.below(130) as u32 } else { 0 };
        compare_ending(given, tally);
        compare_number(given, tally);
        compare_list(given, tally);
        compare_plays(given, sequence, tally);
        compare_look_up(given, count, tables.lent(), table, tally);
        compare_refusing(given, &pocket, tally);
        let told = lent::look_up(given, count, tables.lent(), table);
        refusals[(told as u8 as usize).min(19)] += 1;
    }
    refusals
}

/// The desk and the sets have no pawn: refusal 1, and no byte of a set is written.
pub fn elsewhere(tally: &mut Tally) {
    let mut slips = Vec::new();
    let lines = b"P w c2 a7 a1\np b a8 a2 c7\nP b a1 e4 e5\n";
    let done = Desk::new().run(&lines[..], &mut slips).is_ok();
    let due: &[u8] = b"refused 1\nrefused 1\nrefused 1\n";
    tally.add("the desk's slips", &"P", (done, &slips[..]), (true, due));
    let len = 4 + 4 * (12 + SMALL_BYTES);
    let mut set = vec![165; len];
    let start = set.as_mut_ptr();
    // SAFETY: `start` leads to `len` bytes that nothing else refers to.
    let answers = unsafe {
        let filled = ffi::sledgewren_set_fill(PAWN as u8, start, len);
        (filled as u64, ffi::sledgewren_set_find(PAWN as u8, start, len))
    };
    tally.add("a set's pawn", &len, answers, (1, 1));
    tally.add("a set's bytes", &len, set.iter().all(|&byte| byte == 165), true);
    // A pawn with a second man, in either order, is no ending's.
    for second in 0..6 {
        for [one, two] in [[PAWN as u8, second], [second, PAWN as u8]] {
            let words = [a_man(one, 0, 8), a_man(two, 1, 20)];
            tally.add("ending", &words, lent::ending(words[0], words[1]), u32::MAX);
            let given = Given { side: 0, white: 0, black: 63, first: words[0], second: words[1] };
            tally.add("number", &given, lent::number(given), 0x8000_0001);
            let table = [1; SMALL_BYTES];
            tally.add("look-up", &given, lent::look_up(given, 0, NONE, &table), 1);
        }
    }
}
