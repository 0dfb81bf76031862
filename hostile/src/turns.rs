//! One study, one move: every board of both colours is keyed to both desks, and each slip is held
//! to the slips of the board turned by the eight maps, with and without the exchange of colours.

use second::desk as second_desk;
use second::symmetry::mapped;
use sledgewren::Desk;

use crate::lines::position_line;

/// Boards of one man: two colours, two sides, three squares.
const BOARDS: usize = 4 * 64 * 64 * 64;

/// The map that leaves every square, and how many there are.
const AS_IT_IS: u8 = 0;
const MAPS: u8 = 8;

/// The bit of a map that exchanges file and rank.
const EXCHANGES: u8 = 4;

/// A board: colour, side, white king, man's square, black king.
#[derive(Clone, Copy, PartialEq, Eq, Debug)]
pub struct Board {
    colour: usize,
    side: usize,
    squares: [u8; 3],
}

impl Board {
    fn at(place: usize) -> Board {
        let square = |first: usize| (place >> first & 63) as u8;
        let squares = [square(12), square(6), square(0)];
        Board { colour: place >> 19 & 1, side: place >> 18 & 1, squares }
    }

    fn place(self) -> usize {
        let [white, square, black] = self.squares.map(usize::from);
        self.colour << 19 | self.side << 18 | white << 12 | square << 6 | black
    }

    fn turned(self, map: u8) -> Board {
        Board { squares: self.squares.map(|square| mapped(map, square)), ..self }
    }

    fn exchanged(self) -> Board {
        let [white, square, black] = self.squares;
        Board { colour: 1 - self.colour, side: 1 - self.side, squares: [black, square, white] }
    }

    fn line(self, man: u8) -> Vec<u8> {
        let letter = [man, man.to_ascii_lowercase()][self.colour];
        position_line(letter, b"wb"[self.side], self.squares.map(usize::from))
    }

    /// The map besides the one that leaves all squares under which the board stays as it is.
    fn mirror(self) -> Option<u8> {
        (AS_IT_IS + 1..MAPS).find(|&map| self.turned(map) == self)
    }
}

/// From, to, and whether a man is taken.
type Move = (u8, u8, bool);

/// What a slip says: its first words, and the move.
#[derive(Clone, PartialEq, Eq, Debug)]
struct Said {
    value: String,
    best: Option<Move>,
}

fn square(name: &[u8]) -> Option<u8> {
    match *name {
        [file @ b'a'..=b'h', rank @ b'1'..=b'8'] => Some(8 * (rank - b'1') + (file - b'a')),
        _ => None,
    }
}

fn read_move(word: &str) -> Option<Move> {
    let (from, to) = word.as_bytes().split_at_checked(2)?;
    let (to, takes) = match to.strip_prefix(b"x") {
        Some(to) => (to, true),
        None => (to, false),
    };
    Some((square(from)?, square(to)?, takes))
}

/// None where the desk refuses. A last word that is no move belongs to the value.
fn read_slip(slip: &str) -> Option<Said> {
    if slip.starts_with("refused") {
        return None;
    }
    let last = slip.rsplit_once(' ').and_then(|(value, word)| Some((value, read_move(word)?)));
    let (value, best) = last.map_or((slip, None), |(value, best)| (value, Some(best)));
    Some(Said { value: value.to_string(), best })
}

/// A slip after a map.
fn turned(map: u8, said: &Said) -> Said {
    let turn = |(from, to, takes)| (mapped(map, from), mapped(map, to), takes);
    Said { value: said.value.clone(), best: said.best.map(turn) }
}

/// What the comparison comes to.
#[derive(Default)]
pub struct Sum {
    /// Legal positions, and those under whose slip the oracle's is another.
    pub legal: u64,
    pub unlike: u64,
    /// Slips of turned and exchanged boards, and those that are not the slip turned.
    pub turns: u64,
    pub differ: u64,
    /// Positions that two maps make normal, and turns of them that mirror the move.
    pub fitted: u64,
    pub mirrored: u64,
}

/// Differences told one by one; the rest are only counted.
const TOLD: u64 = 20;

impl Sum {
    /// Where two maps fit, the map without the exchange of file and rank carries the move back: a
    /// turn that exchanges them gives the mirror move, and any other turn the move turned.
    fn hold(&mut self, board: Board, said: &[Option<Said>]) {
        let Some(here) = &said[board.place()] else { return };
        let mirror = board.mirror();
        self.fitted += mirror.is_some() as u64;
        for map in AS_IT_IS..MAPS {
            let plain = turned(map, here);
            let due = match mirror {
                Some(mirror) if map & EXCHANGES != 0 => turned(map, &turned(mirror, here)),
                _ => plain.clone(),
            };
            let there = board.turned(map);
            for there in [there, there.exchanged()] {
                self.turns += 1;
                self.mirrored += (due != plain) as u64;
                let found = &said[there.place()];
                if found.as_ref() != Some(&due) {
                    self.differ += 1;
                    if self.differ <= TOLD {
                        println!("{board:?} {here:?}, map {map}: {there:?} {found:?}, not {due:?}");
                    }
                }
            }
        }
    }
}

/// Every board's slip by the library's desk and by the oracle's.
fn slips(input: &[u8]) -> Result<[String; 2], String> {
    let (mut ours, mut theirs) = (Vec::new(), Vec::new());
    let done = Desk::new().run(input, &mut ours).is_ok();
    if !done || second_desk::run(input, &mut theirs).is_err() {
        return Err("a desk broke off".to_string());
    }
    let texts = [ours, theirs].map(|slips| String::from_utf8_lossy(&slips).into_owned());
    let counts = texts.each_ref().map(|slips| slips.lines().count());
    match counts == [BOARDS; 2] {
        true => Ok(texts),
        false => Err(format!("the desks wrote {counts:?} slips")),
    }
}

/// All boards of one man.
pub fn compare(man: u8, sum: &mut Sum) -> Result<(), String> {
    let mut input = Vec::new();
    for place in 0..BOARDS {
        input.extend(Board::at(place).line(man));
        input.push(b'\n');
    }
    let [ours, theirs] = slips(&input)?;
    for (place, (one, other)) in ours.lines().zip(theirs.lines()).enumerate() {
        sum.legal += !one.starts_with("refused") as u64;
        if one != other {
            sum.unlike += 1;
            if sum.unlike <= TOLD {
                println!("{:?}: library {one:?}, oracle {other:?}", Board::at(place));
            }
        }
    }
    let said: Vec<Option<Said>> = ours.lines().map(read_slip).collect();
    (0..BOARDS).for_each(|place| sum.hold(Board::at(place), &said));
    Ok(())
}
