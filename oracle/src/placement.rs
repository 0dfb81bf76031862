//! Two kings and up to two men of either colour, as placed.

use crate::board::{bit, touching, Square, SquareSet};
use crate::position::{Keyed, KeyedMan, Man, Position, Refused, Side};

/// How many men a part takes besides the kings: "the desk program and the parts of P1, P2, P4 and
/// P7 keep to three men, and two stay refused 1 there".
#[derive(Clone, Copy, PartialEq, Eq, Debug)]
pub enum Limit {
    OneMan,
    TwoMen,
}

/// A man besides the kings: his kind, colour and square.
#[derive(Clone, Copy, PartialEq, Eq, Debug)]
pub struct Owned {
    pub kind: Man,
    pub colour: Side,
    pub square: Square,
}

/// All on different squares, the kings not touching. It need not be legal: the side not to move
/// may be in check. No absent man stands before a present one; with none the kings are bare.
#[derive(Clone, Copy, PartialEq, Eq, Debug)]
pub struct Placement {
    pub side: Side,
    /// White's and Black's.
    pub kings: [Square; 2],
    pub men: [Option<Owned>; 2],
}

impl Placement {
    #[inline]
    pub fn king(&self, side: Side) -> Square {
        self.kings[side as usize]
    }

    #[inline]
    pub fn present(&self) -> impl Iterator<Item = Owned> + '_ {
        self.men.iter().copied().flatten()
    }

    /// The squares on which a side's men stand, its king included.
    #[inline]
    pub fn men_of(&self, side: Side) -> SquareSet {
        let own = self.present().filter(|man| man.colour == side);
        own.fold(bit(self.king(side)), |set, man| set | bit(man.square))
    }

    #[inline]
    pub fn occupied(&self) -> SquareSet {
        let kings = bit(self.kings[0]) | bit(self.kings[1]);
        self.present().fold(kings, |set, man| set | bit(man.square))
    }

    /// "Exchanges the colours and the side to move": no square changes.
    pub fn exchanged(&self) -> Placement {
        let [white, black] = self.kings;
        let men = self.men.map(|man| man.map(|man| Owned { colour: man.colour.other(), ..man }));
        Placement { side: self.side.other(), kings: [black, white], men }
    }

    /// Every square changed by one rule.
    pub fn mapped(&self, change: impl Fn(Square) -> Square) -> Placement {
        let men = self.men.map(|man| man.map(|man| Owned { square: change(man.square), ..man }));
        Placement { side: self.side, kings: self.kings.map(&change), men }
    }

    /// With one man: the position that his ending's table knows, where he is White's.
    pub fn alone(&self) -> Option<Position> {
        let [Some(man), None] = self.men else { return None };
        let side = if man.colour == Side::White { self.side } else { self.side.other() };
        let owner = man.colour;
        Some(Position {
            man: man.kind,
            side,
            white_king: self.king(owner),
            man_square: man.square,
            black_king: self.king(owner.other()),
        })
    }

    pub fn keyed(&self) -> Keyed {
        let key = |man: Owned| KeyedMan {
            kind: man.kind.code(),
            colour: man.colour.code(),
            square: man.square,
        };
        let [white_king, black_king] = self.kings;
        Keyed { side: self.side.code(), white_king, black_king, men: self.men.map(|m| m.map(key)) }
    }
}

impl From<&Position> for Placement {
    fn from(position: &Position) -> Placement {
        let Position { man, side, white_king, man_square, black_king } = *position;
        let man = Owned { kind: man, colour: Side::White, square: man_square };
        Placement { side, kings: [white_king, black_king], men: [Some(man), None] }
    }
}

/// Refusal 1: a kind above 3, no man, an absent man before a present one, too many men.
fn kinds(men: &[Option<KeyedMan>; 2], limit: Limit) -> Result<(), Refused> {
    let known = men.iter().flatten().all(|man| Man::from_code(man.kind).is_some());
    let count_right = match men {
        [None, _] => false,
        [Some(_), None] => true,
        [Some(_), Some(_)] => limit == Limit::TwoMen,
    };
    if known && count_right {
        Ok(())
    } else {
        Err(Refused(1))
    }
}

fn owned(man: KeyedMan) -> Result<Owned, Refused> {
    let kind = Man::from_code(man.kind).ok_or(Refused(1))?;
    let colour = Side::from_code(man.colour).ok_or(Refused(2))?;
    Ok(Owned { kind, colour, square: man.square })
}

impl Keyed {
    /// Refusals 1 to 5 of up to as many men as a part takes, the lowest first.
    pub fn placement(&self, limit: Limit) -> Result<Placement, Refused> {
        kinds(&self.men, limit)?;
        let side = Side::from_code(self.side).ok_or(Refused(2))?;
        let [first, second] = self.men.map(|man| man.map(owned).transpose());
        let placement =
            Placement { side, kings: [self.white_king, self.black_king], men: [first?, second?] };
        let men = placement.present().map(|man| man.square);
        let squares: Vec<Square> = placement.kings.into_iter().chain(men).collect();
        if squares.iter().any(|&square| square > 63) {
            return Err(Refused(3));
        }
        if (1..squares.len()).any(|place| squares[..place].contains(&squares[place])) {
            return Err(Refused(4));
        }
        if touching(self.white_king, self.black_king) {
            return Err(Refused(5));
        }
        Ok(placement)
    }
}
