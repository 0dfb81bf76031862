//! Check, legality and legal moves of two kings and up to two men, by the Laws of Chess.

use crate::board::{bit, holds, king_attack, Square, SquareSet, Squares};
use crate::placement::{Limit, Owned, Placement};
use crate::position::{Keyed, Man, Refused, Side};
use crate::rules::Move;
use crate::sight::{attack, sees};

/// "The move list's room rises from 35 to 62": two queens with 27 moves each, and a king with 8.
pub const ROOM: usize = 62;

/// Moves by from-square, then to-square; unused places hold zero.
#[derive(Clone, Copy)]
pub struct Moves {
    count: usize,
    places: [Move; ROOM],
}

impl Moves {
    pub fn as_slice(&self) -> &[Move] {
        &self.places[..self.count]
    }

    /// All 62 places, the unused ones too.
    pub fn places(&self) -> &[Move; ROOM] {
        &self.places
    }

    fn add(&mut self, chosen: Move) {
        if let Some(place) = self.places.get_mut(self.count) {
            *place = chosen;
            self.count += 1;
        }
    }
}

/// Do the other side's men see a side's king? The kings never touch, so the other king does not.
#[inline]
pub fn attacked(placement: &Placement, side: Side) -> bool {
    let (king, occupied) = (placement.king(side), placement.occupied());
    placement.present().any(|man| man.colour != side && sees(man.kind, man.square, king, occupied))
}

pub fn in_check(placement: &Placement) -> bool {
    attacked(placement, placement.side)
}

/// "Side not to move not in check": the part of legality left after placing.
pub fn legal(placement: &Placement) -> bool {
    !attacked(placement, placement.side.other())
}

/// Refusals 1 to 6, for the move list and look-up.
pub fn legal_placement(keyed: &Keyed, limit: Limit) -> Result<Placement, Refused> {
    let placement = keyed.placement(limit)?;
    if legal(&placement) {
        Ok(placement)
    } else {
        Err(Refused(6))
    }
}

/// Is the mover's king safe once the man on `from` stands on `to`? A man taken there sees nothing.
#[inline]
fn safe(placement: &Placement, from: Square, to: Square, occupied: SquareSet) -> bool {
    let side = placement.side;
    let king = placement.king(side);
    let king = if from == king { to } else { king };
    let after = occupied & !bit(from) | bit(to);
    !placement.present().any(|man| {
        man.colour != side && man.square != to && sees(man.kind, man.square, king, after)
    })
}

/// A king, or a man of a kind, that may move.
type Mover = (Square, Option<Man>);

/// The men of the side to move, rising by square.
fn movers(placement: &Placement) -> ([Mover; 3], usize) {
    let mut movers = [(placement.king(placement.side), None); 3];
    let mut count = 1;
    for Owned { kind, square, .. } in placement.present().filter(|man| man.colour == placement.side)
    {
        movers[count] = (square, Some(kind));
        count += 1;
    }
    movers[..count].sort_unstable_by_key(|mover| mover.0);
    (movers, count)
}

/// Gives each legal move of a legal placement, in list order.
#[inline]
pub fn each_move(placement: &Placement, mut give: impl FnMut(Move)) {
    let side = placement.side;
    let (own, others) = (placement.men_of(side), placement.men_of(side.other()));
    let other_king = placement.king(side.other());
    let (movers, count) = movers(placement);
    for &(from, kind) in &movers[..count] {
        let reached = match kind {
            Some(kind) => attack(kind, from, own | others),
            None => king_attack(from) & !king_attack(other_king),
        };
        for to in Squares(reached & !own & !bit(other_king)) {
            if safe(placement, from, to, own | others) {
                give(Move { from, to, takes: holds(others, to) });
            }
        }
    }
}

/// The legal moves of a legal placement.
pub fn moves(placement: &Placement) -> Moves {
    let mut list = Moves { count: 0, places: [Move::default(); ROOM] };
    each_move(placement, |chosen| list.add(chosen));
    list
}

/// The placement after a move. A man left alone counts as the first.
#[inline]
pub fn play(placement: &Placement, chosen: Move) -> Placement {
    let step = |square: Square| if square == chosen.from { chosen.to } else { square };
    let mut men = placement.men;
    if chosen.takes {
        men = men.map(|man| man.filter(|man| man.square != chosen.to));
        if men[0].is_none() {
            men.reverse();
        }
    }
    let men = men.map(|man| man.map(|man| Owned { square: step(man.square), ..man }));
    Placement { side: placement.side.other(), kings: placement.kings.map(step), men }
}
