//! Playing on: a move as players write it, and the line of best play.

use sledgewren::{entry, Accepted, Answer, FourMen, Keyed, KeyedMan, KingAndPawn, Man, Marked};
use sledgewren::{Move, Refusal, Side};

/// The tables that a position is looked up in.
pub enum Tables<'a> {
    One(&'a Accepted),
    Two(&'a FourMen<'a>),
    Pawn(&'a KingAndPawn<'a>),
}

impl Tables<'_> {
    pub fn look_up(&self, keyed: impl Into<Keyed>) -> Result<Answer, Refusal> {
        self.look_up_at(keyed, 0).map(|marked| marked.answer)
    }

    pub fn look_up_at(&self, keyed: impl Into<Keyed>, plies: u32) -> Result<Marked, Refusal> {
        match self {
            Tables::One(table) => table.table().look_up_at(keyed, plies),
            Tables::Two(tables) => tables.look_up_at(keyed, plies),
            Tables::Pawn(tables) => tables.look_up_at(keyed, plies),
        }
    }
}

/// Is the side to move in check? The library refuses 6 exactly where the side not to move is, so
/// the question is put with the sides exchanged.
fn is_check(keyed: Keyed) -> bool {
    let exchanged = Keyed { side: 1 - keyed.side, ..keyed };
    entry::count(exchanged) == Err(Refusal::OtherInCheck)
}

/// The letter of the piece on a move's from-square; a pawn has none.
fn letter(keyed: Keyed, chosen: Move) -> String {
    let man = keyed.men.into_iter().flatten().find(|man| man.square == chosen.from.code());
    match man {
        Some(KeyedMan { kind: KeyedMan::PAWN, .. }) => String::new(),
        _ => man.and_then(|man| Man::from_code(man.kind)).map_or('K', Man::letter).to_string(),
    }
}

/// What tells a move from another one of a like man to the same square: its file, its rank or
/// both.
fn origin(keyed: Keyed, chosen: Move) -> Result<String, Refusal> {
    let moves = entry::moves(keyed)?;
    let others: Vec<&Move> = moves
        .iter()
        .filter(|other| other.to == chosen.to && other.from != chosen.from)
        .filter(|other| letter(keyed, **other) == letter(keyed, chosen))
        .collect();
    let from = chosen.from.to_string();
    if others.is_empty() {
        return Ok(String::new());
    }
    if others.iter().all(|other| other.from.file() != chosen.from.file()) {
        return Ok(from[..1].to_string());
    }
    if others.iter().all(|other| other.from.rank() != chosen.from.rank()) {
        return Ok(from[1..].to_string());
    }
    Ok(from)
}

/// Standard algebraic notation: `Qg1#`, `Kxb2`, `Rad1`, `a8=Q#`.
pub fn san(keyed: impl Into<Keyed>, chosen: Move) -> Result<String, Refusal> {
    let keyed = keyed.into();
    let (letter, origin) = (letter(keyed, chosen), origin(keyed, chosen)?);
    let takes = if chosen.takes { "x" } else { "" };
    let becomes = chosen.becomes.map_or(String::new(), |man| format!("={}", man.letter()));
    let next = keyed.play(chosen)?;
    let mark = match next.filter(|next| next.men[0].is_some() && is_check(*next)) {
        Some(next) if entry::count(next)? == 0 => "#",
        Some(_) => "+",
        None => "",
    };
    Ok(format!("{letter}{origin}{takes}{}{becomes}{mark}", chosen.to))
}

/// The moves that the tables give to both sides, up to mate.
pub fn line(tables: &Tables, keyed: impl Into<Keyed>) -> Result<Vec<String>, Refusal> {
    let (mut keyed, mut moves) = (keyed.into(), Vec::new());
    // A depth is at most 253, and each of these moves takes one ply off it.
    while let Some(best) = tables.look_up(keyed)?.best() {
        moves.push(san(keyed, best)?);
        match keyed.play(best)? {
            Some(next) if moves.len() < 254 && next.men[0].is_some() => keyed = next,
            _ => break,
        }
    }
    Ok(moves)
}

/// `1. Qe4+ Kd2 2. Qf3`, or `1... Kd2 2. Qf3` where Black begins.
pub fn numbered(first: Side, moves: &[String]) -> String {
    let skipped = (first == Side::Black) as usize;
    let mut words = Vec::new();
    for (place, san) in moves.iter().enumerate() {
        let ply = place + skipped;
        let number = ply / 2 + 1;
        if ply % 2 == 0 {
            words.push(format!("{number}."));
        } else if place == 0 {
            words.push(format!("{number}..."));
        }
        words.push(san.clone());
    }
    words.join(" ")
}
