//! The pawn's table beside the four lent tables of one man: the byte required, checking, looking up.

use crate::index;
use crate::pawn_number::{number_of, position_of, Turn, PAWN_NUMBERS};
use crate::pawn_position::PawnPosition;
use crate::pawn_rules::{in_check, legal, legal_pawn, moves, play, After, PawnMove};
use crate::position::{Keyed, Refused, MEN};
use crate::rule::{value, Successors, Value, DRAW, UNUSED};
use crate::table::{self, wanted, Checked, Table};

/// One byte a number of the pawn's ending.
pub type PawnTable = [u8; PAWN_NUMBERS];

/// The tables of queen, rook, bishop and knight, lent for what promotions leave.
pub type Lent<'a> = [&'a Table; 4];

/// Refusal 7 of the lent tables.
pub fn lent_sized<'a>([q, r, b, n]: [&'a [u8]; 4]) -> Result<Lent<'a>, Refused> {
    Ok([table::sized(q)?, table::sized(r)?, table::sized(b)?, table::sized(n)?])
}

/// Refusal 7 of the pawn's own table.
pub fn sized(bytes: &[u8]) -> Result<&PawnTable, Refused> {
    bytes.try_into().map_err(|_| Refused(7))
}

/// Refusal 7 of the pawn's own table lent for writing.
pub fn sized_mut(bytes: &mut [u8]) -> Result<&mut PawnTable, Refused> {
    bytes.try_into().map_err(|_| Refused(7))
}

/// Refusal 17: one of the lent tables is not accepted by the checker.
pub fn accepted(lent: Lent) -> Result<(), Refused> {
    let right = |(man, table): (crate::position::Man, &Table)| {
        table::check(man.code(), table) == Ok(Checked::Accepted)
    };
    if MEN.into_iter().zip(lent).all(right) {
        Ok(())
    } else {
        Err(Refused(17))
    }
}

/// What all five tables together say of the pawn's ending and of what its moves leave.
#[derive(Clone, Copy)]
pub struct PawnTables<'a> {
    pub own: &'a PawnTable,
    pub lent: Lent<'a>,
}

impl PawnTables<'_> {
    /// The byte of what a move left; bare kings are a draw.
    pub fn byte(&self, after: &After) -> u8 {
        match after {
            After::Pawn(position) => self.own[number_of(position)],
            After::Promoted(placement) => placement.alone().map_or(DRAW, |position| {
                self.lent[position.man as usize][index::number_of(&position)]
            }),
            After::BareKings => DRAW,
        }
    }

    /// What a legal position's successors require of its byte.
    pub fn required_of(&self, position: &PawnPosition) -> Option<u8> {
        let mut successors = Successors::none();
        for chosen in moves(position) {
            successors.add(self.byte(&play(position, chosen)));
        }
        successors.required(|| in_check(position))
    }

    /// The byte required at a number, or none where every byte is wrong.
    pub fn required(&self, number: usize) -> Option<u8> {
        match position_of(number) {
            Some(position) if legal(&position) => self.required_of(&position),
            _ => Some(UNUSED),
        }
    }

    /// The first move in list order, on the normal board, that leads to the value wanted, carried
    /// back by the turn.
    fn first_leading(&self, position: &PawnPosition, after: Value) -> Option<PawnMove> {
        let turn = Turn::of(position);
        let normal = turn.position(position);
        let leads = |&chosen: &PawnMove| value(self.byte(&play(&normal, chosen))) == after;
        moves(&normal).into_iter().find(leads).map(|chosen| PawnMove {
            from: turn.square(chosen.from),
            to: turn.square(chosen.to),
            ..chosen
        })
    }
}

/// Checking: refusals 7, and 17 before anything of the pawn's own table.
pub fn check(own: &[u8], lent: [&[u8]; 4]) -> Result<Checked, Refused> {
    let tables = PawnTables { own: sized(own)?, lent: lent_sized(lent)? };
    accepted(tables.lent)?;
    let wrong = |&number: &usize| tables.required(number) != Some(own[number]);
    Ok((0..PAWN_NUMBERS).find(wrong).map_or(Checked::Accepted, Checked::Wrong))
}

/// Look-up's answer; the move is none for mate and stalemate.
#[derive(Clone, Copy, PartialEq, Eq, Debug)]
pub struct PawnAnswer {
    pub value: Value,
    pub best: Option<PawnMove>,
}

/// Looking up a lone pawn: refusals 1, 2, 3, 18, 4, 5, 6, 7 and 11. 17 is not asked.
pub fn look_up(own: &[u8], lent: [&[u8]; 4], keyed: &Keyed) -> Result<PawnAnswer, Refused> {
    let position = legal_pawn(keyed)?;
    let tables = PawnTables { own: sized(own)?, lent: lent_sized(lent)? };
    let byte = tables.own[number_of(&position)];
    if tables.required_of(&position) != Some(byte) {
        return Err(Refused(11));
    }
    let held = value(byte);
    let best = wanted(held).and_then(|after| tables.first_leading(&position, after));
    Ok(PawnAnswer { value: held, best })
}
