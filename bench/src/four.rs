//! Two men: filling, checking and looking up beside the oracle and beside one man.

use std::hint::black_box;
use std::path::{Path, PathBuf};

use second::ending::Ending;
use second::four_every;
use second::four_number::position_of;
use second::four_table;
use second::laws::legal;
use second::placement::Placement;
use second::position::{Refused, MEN};
use second::table::Checked;

use crate::lent::{self, a_man, two_men, Given, LARGE_BYTES, NONE, SMALL_BYTES};
use crate::positions::{of_ending, shuffled};
use crate::tables::DIRT;
use crate::timing::{medians, timed, Of, Row};

/// The endings that are filled; between them they have each man once.
pub const MEASURED: [&str; 2] = ["KBNK", "KQKR"];

/// One legal number in so many is looked up.
const ONE_IN: usize = 4;

/// The library's tables of one man, by code.
pub struct Small([Vec<u8>; 4]);

impl Small {
    pub fn filled() -> Small {
        Small(MEN.map(|man| {
            let mut table = vec![DIRT; SMALL_BYTES];
            lent::fill(man.code() as u32, NONE, &mut table);
            table
        }))
    }

    /// As the timed rows have written them.
    pub fn read(folder: &Path) -> Result<Small, String> {
        let [queen, rook, bishop, knight] = MEN.map(|man| read(folder, man.name()));
        Ok(Small([queen?, rook?, bishop?, knight?]))
    }

    fn write(&self, folder: &Path) -> Result<(), String> {
        let mut tables = MEN.into_iter().zip(&self.0);
        tables.try_for_each(|(man, table)| write(folder, man.name(), table))
    }

    pub fn lent(&self, ending: Ending) -> lent::Small<'_> {
        ending.codes().map(|code| &self.0[code as usize][..])
    }
}

pub fn named(name: &str) -> Result<Ending, String> {
    Ending::named(name).ok_or(format!("no ending {name}"))
}

pub fn filled_word(answer: Result<Option<u8>, Refused>) -> u32 {
    match answer {
        Ok(Some(depth)) => 1 << 8 | (depth as u32) << 16,
        Ok(None) => 0,
        Err(Refused(code)) => code as u32,
    }
}

/// The fill by passes beside the oracle's that asks every position, once each, since they take long;
/// the library's table.
pub fn fill(name: &str, small: &Small) -> Result<(Row, Vec<u8>), String> {
    let ending = named(name)?;
    let (word, lent) = (two_men(ending.codes(), ending.one_each), small.lent(ending));
    let (mut ours, mut theirs) = (vec![DIRT; LARGE_BYTES], vec![DIRT; LARGE_BYTES]);
    let (mut answer, mut due) = (0, 0);
    let library = timed(|| answer = black_box(lent::fill(word, lent, &mut ours))).as_secs_f64();
    eprintln!("fill, {name}: library {library:.2} s");
    let mut fill = || four_every::fill(ending.codes(), ending.one_each, &mut theirs, lent);
    let other = timed(|| due = filled_word(fill())).as_secs_f64();
    eprintln!("fill, {name}: oracle {other:.2} s");
    if ours != theirs || answer != due {
        return Err(format!("{name}: the two fills differ"));
    }
    let (what, beside) = (format!("fill, {name}"), "oracle, every position");
    Ok((Row { what, library, beside, other, of: Of::Whole, goal: Some(1.2) }, ours))
}

/// An accepted table: every number is looked at.
pub fn check(name: &str, small: &Small, table: &[u8], repeats: usize) -> Result<Row, String> {
    let ending = named(name)?;
    let (word, lent) = (two_men(ending.codes(), ending.one_each), small.lent(ending));
    let (mut accepted, mut oracle_accepted) = (true, true);
    let oracle = || {
        let checked = four_table::check(ending.codes(), ending.one_each, black_box(table), lent);
        checked == Ok(Checked::Accepted)
    };
    let (library, other) = medians(
        repeats,
        || timed(|| accepted &= lent::check(word, lent, black_box(table)) == 0),
        || timed(|| oracle_accepted &= oracle()),
    );
    if !accepted || !oracle_accepted {
        return Err(format!("{name}: the table is not accepted"));
    }
    let what = format!("check, {name}");
    Ok(Row { what, library, beside: "oracle", other, of: Of::Whole, goal: None })
}

fn given(placement: &Placement) -> Given {
    let [white, black] = placement.kings;
    let man = |place: usize| {
        placement.men[place].map_or(0, |man| a_man(man.kind.code(), man.colour.code(), man.square))
    };
    Given { side: placement.side.code(), white, black, first: man(0), second: man(1) }
}

/// A position to look up, and which table is its own.
pub type Asked = (usize, Given);

/// Legal positions of the measured endings, one in so many, by number.
pub fn of_two_men(one_in: usize) -> Result<Vec<Asked>, String> {
    let mut found = Vec::new();
    for (place, name) in MEASURED.into_iter().enumerate() {
        let ending = named(name)?;
        let placements = (0..LARGE_BYTES).step_by(one_in).filter_map(|n| position_of(ending, n));
        found.extend(placements.filter(legal).map(|placement| (place, given(&placement))));
    }
    Ok(found)
}

/// All legal positions with one man, square by square; one in so many.
pub fn of_one_man(one_in: usize) -> Vec<Asked> {
    let mut found = Vec::new();
    for man in sledgewren::Man::ALL {
        for keyed in of_ending(man).into_iter().step_by(one_in) {
            let [first, second] = keyed.words();
            let (white, black) = (keyed.white_king, keyed.black_king);
            let asked = Given { side: keyed.side, white, black, first, second };
            found.push((man.code() as usize, asked));
        }
    }
    found
}

/// Look-ups with two men, then with one.
pub struct Ground<'a> {
    pub small: &'a Small,
    pub large: &'a [Vec<u8>],
}

impl Ground<'_> {
    pub fn two_men(&self, asked: &[Asked]) {
        let lent = MEASURED.map(|name| named(name).map_or(NONE, |ending| self.small.lent(ending)));
        for &(place, given) in asked {
            black_box(lent::look_up(given, 0, lent[place], &self.large[place]));
        }
    }

    pub fn one_man(&self, asked: &[Asked]) {
        for &(man, given) in asked {
            black_box(lent::look_up(given, 0, NONE, &self.small.0[man]));
        }
    }

    fn row(&self, two: &[Asked], one: &[Asked], order: &str, repeats: usize) -> Row {
        let (library, other) =
            medians(repeats, || timed(|| self.two_men(two)), || timed(|| self.one_man(one)));
        // Both times are for one position.
        let (library, other) = (library / two.len() as f64, other / one.len() as f64);
        let what = format!("look-up, two men, {order}");
        let beside = "library's look-up, one man";
        Row { what, library, beside, other, of: Of::Whole, goal: Some(1.5) }
    }
}

/// Where the tables are kept for counting instructions.
fn kept(folder: &Path, name: &str) -> PathBuf {
    folder.join(format!("{name}.table"))
}

pub fn read(folder: &Path, name: &str) -> Result<Vec<u8>, String> {
    std::fs::read(kept(folder, name)).map_err(|error| format!("{name}: {error}"))
}

pub fn write(folder: &Path, name: &str, table: &[u8]) -> Result<(), String> {
    std::fs::write(kept(folder, name), table).map_err(|error| format!("{name}: {error}"))
}

pub fn rows(folder: &Path, repeats: usize) -> Result<Vec<Row>, String> {
    let small = Small::filled();
    small.write(folder)?;
    let (mut rows, mut large) = (Vec::new(), Vec::new());
    for name in MEASURED {
        let (row, table) = fill(name, &small)?;
        rows.push(row);
        write(folder, name, &table)?;
        large.push(table);
    }
    for (name, table) in MEASURED.into_iter().zip(&large) {
        rows.push(check(name, &small, table, repeats)?);
    }
    let ground = Ground { small: &small, large: &large };
    let (two, one) = (of_two_men(ONE_IN)?, of_one_man(1));
    rows.push(ground.row(&two, &one, "by number", repeats));
    rows.push(ground.row(&shuffled(two), &shuffled(one), "shuffled", repeats));
    Ok(rows)
}
