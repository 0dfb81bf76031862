//! One word for what three programs say of a position: the library, the oracle and Gaviota.

use gaviota::{Gaviota, Probed};
use second::position::{Keyed as SecondKeyed, KeyedMan as SecondMan, Refused};
use second::rule::Value as SecondValue;
use sledgewren::{Keyed, KeyedMan, Man, Refusal, Side, Table, Value};

/// What is said of three different squares with the kings apart.
#[derive(Clone, Copy, PartialEq, Eq, Debug)]
pub enum Judged {
    /// The side not to move is in check.
    Illegal,
    /// Its value and depth in plies.
    Legal(Value),
    /// Anything else, which is always a difference.
    Strange,
}

/// The three programs with an ending's tables in hand.
pub struct Judges<'a> {
    pub gaviota: &'a Gaviota,
    pub library: &'a Table,
    pub oracle: &'a [u8],
}

impl Judges<'_> {
    pub fn library(&self, keyed: Keyed) -> Judged {
        match self.library.look_up(keyed) {
            Ok(answer) => Judged::Legal(answer.value()),
            Err(Refusal::OtherInCheck) => Judged::Illegal,
            Err(_) => Judged::Strange,
        }
    }

    pub fn oracle(&self, keyed: Keyed) -> Judged {
        let answer = second::table::look_up(self.oracle, &second_keyed(keyed));
        match answer.map(|answer| answer.value) {
            Ok(SecondValue::Win(depth)) => Judged::Legal(Value::Win(depth)),
            Ok(SecondValue::Loss(depth)) => Judged::Legal(Value::Loss(depth)),
            Ok(SecondValue::Draw) => Judged::Legal(Value::Draw),
            Err(Refused(6)) => Judged::Illegal,
            Err(_) => Judged::Strange,
        }
    }

    pub fn gaviota(&self, keyed: Keyed) -> Judged {
        gaviota_says(self.gaviota, keyed)
    }
}

fn second_keyed(keyed: Keyed) -> SecondKeyed {
    let Keyed { side, white_king, black_king, men } = keyed;
    let men = men
        .map(|man| man.map(|KeyedMan { kind, colour, square }| SecondMan { kind, colour, square }));
    SecondKeyed { side, white_king, black_king, men }
}

/// Gaviota counts plies to mate: by the side to move it is a win, by the other one a loss. Only the
/// man's side can mate.
pub fn gaviota_says(gaviota: &Gaviota, keyed: Keyed) -> Judged {
    let Keyed { side, white_king, black_king, men: [Some(man), None] } = keyed else {
        return Judged::Strange;
    };
    let KeyedMan { kind, colour, square } = man;
    let (mating, plies) =
        match gaviota.probe([kind, colour, square], side, [white_king, black_king]) {
            Probed::Forbidden => return Judged::Illegal,
            Probed::Draw => return Judged::Legal(Value::Draw),
            Probed::WhiteMates(plies) => (Side::White.code(), plies),
            Probed::BlackMates(plies) => (Side::Black.code(), plies),
            Probed::Unknown => return Judged::Strange,
        };
    match u8::try_from(plies) {
        _ if mating != colour => Judged::Strange,
        Ok(depth) if mating == side && depth % 2 == 1 => Judged::Legal(Value::Win(depth)),
        Ok(depth) if mating != side && depth % 2 == 0 => Judged::Legal(Value::Loss(depth)),
        _ => Judged::Strange,
    }
}

/// Three different squares, the kings apart, by the oracle's word.
pub fn placed(keyed: Keyed) -> bool {
    second_keyed(keyed).placed().is_ok()
}

/// Everything that can be keyed with a man of a colour and a side on the board.
pub fn all_keyed(man: Man, colour: Side, side: Side) -> impl Iterator<Item = Keyed> {
    let [man, colour, side] = [man.code(), colour.code(), side.code()];
    (0..64u32.pow(3)).map(move |place| {
        let square = |first: u32| (place >> first & 63) as u8;
        Keyed::from([man, side, square(12), square(6), square(0), colour])
    })
}
