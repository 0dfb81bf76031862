//! Look-up with a count beside the oracle's: the answer, its mark and refusal 19.

use second::fifty::look_up_counted;
use sledgewren::Keyed;

use crate::calls::{filled, second, Tally};
use crate::lent::{self, NONE};
use crate::sequence::Sequence;
use crate::words::{counted_word, word};

/// Counts beyond those that a caller may key.
const BEYOND: [u32; 8] = [100, 101, 102, 127, 128, 255, 256, u32::MAX];

/// Positions of each value and depth, and of each refusal, that are looked up at every count.
const EACH: usize = 12;

/// Marks and refusals among the answers, and how many values, depths and refusals were met.
#[derive(Default, Debug)]
pub struct Kinds {
    pub marked: u64,
    pub refused_19: u64,
    pub refused_11: u64,
    pub cases: usize,
}

impl Kinds {
    fn compare(&mut self, table: &[u8], keyed: Keyed, count: u32, tally: &mut Tally) {
        let told = lent::look_up(keyed.into(), count, NONE, table);
        let theirs = look_up_counted(table, &second(keyed), count);
        tally.add("look-up", &(keyed, count), told, word(theirs, counted_word));
        self.marked += told >> 25 & 1;
        self.refused_19 += (told == 19) as u64;
        self.refused_11 += (told == 11) as u64;
    }
}

/// The value and depth of a board, or 0 and its refusal.
fn case(table: &[u8], keyed: Keyed) -> (u8, u8) {
    let [refusal, value, depth, ..] = lent::look_up(keyed.into(), 0, NONE, table).to_le_bytes();
    match refusal {
        0 => (value, depth),
        code => (0, code),
    }
}

/// Every board of either colour at one count, and some of each case at every count.
pub fn boards(sequence: &mut Sequence, tally: &mut Tally) -> Kinds {
    let mut kinds = Kinds::default();
    for (man, colour) in (0..4).flat_map(|man| [(man, 0), (man, 1)]) {
        let table = filled(man);
        let mut seen = [[0; 256]; 4];
        for place in 0..2u32 << 18 {
            let square = |first: u32| (place >> first & 63) as u8;
            let side = (place >> 18) as u8;
            let keyed = Keyed::from([man, side, square(12), square(6), square(0), colour]);
            kinds.compare(&table, keyed, sequence.below(104) as u32, tally);
            let (value, depth) = case(&table, keyed);
            let times: &mut usize = &mut seen[value as usize][depth as usize];
            *times += 1;
            kinds.cases += (*times == 1) as usize;
            if *times <= EACH {
                let counts = (0..100).chain(BEYOND);
                counts.for_each(|count| kinds.compare(&table, keyed, count, tally));
            }
        }
    }
    kinds
}

/// Damaged tables and random counts: 11 comes before 19.
pub fn damaged(calls: u64, sequence: &mut Sequence, tally: &mut Tally) -> Kinds {
    let mut kinds = Kinds::default();
    let mut tables: Vec<Vec<u8>> = (0..4).map(filled).collect();
    for _ in 0..calls {
        let man = sequence.below(4);
        let table = &mut tables[man];
        let at = sequence.below(table.len());
        table[at] = sequence.below(40) as u8;
        let squares = [0; 3].map(|_| sequence.below(65) as u8);
        let (side, colour) = (sequence.below(3) as u8, sequence.below(2) as u8);
        let keyed = [man as u8, side, squares[0], squares[1], squares[2], colour];
        let count = sequence.below(130) as u32;
        kinds.compare(table, Keyed::from(keyed), count, tally);
    }
    kinds
}
