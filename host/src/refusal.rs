//! Refusals.

use std::fmt;

/// Why an entry point gives no answer. Where several apply the lowest counts, except that a
/// line's shape comes first, then its check, and that 18 stands between 3 and 4.
#[derive(Clone, Copy, PartialEq, Eq, Hash, Debug)]
pub enum Refusal {
    /// 1: a man's code above 4, or no ending's word; no man, a pawn with a second man, or two men
    /// or a pawn where one piece is served.
    BadMan = 1,
    /// 2: side not 0 or 1.
    BadSide = 2,
    /// 3: a square above 63.
    BadSquare = 3,
    /// 4: two men on one square.
    SharedSquare = 4,
    /// 5: kings touch.
    KingsTouch = 5,
    /// 6: the side not to move is in check. Numbering does not ask.
    OtherInCheck = 6,
    /// 7: a table not as long as its ending's, or pocket not 14,784 bytes.
    TableLength = 7,
    /// 8: number above 59,135, 3,784,703 with two men, 196,607 with a pawn.
    NumberTooHigh = 8,
    /// 9: number unused.
    NumberUnused = 9,
    /// 10: a legal position's true depth exceeds 253.
    TooDeep = 10,
    /// 11: at look-up, the position's byte is not what its successors' bytes require; at pocket
    /// look-up, a legal position's entry is 0.
    Inconsistent = 11,
    /// 12: line of the wrong shape.
    BadLine = 12,
    /// 13: check digits of a typed number wrong.
    BadCheck = 13,
    /// 14: not a right set, or not as long as the endings chosen need.
    WrongSet = 14,
    /// 15: the ending is not in the set, or the table is another one's.
    NotInSet = 15,
    /// 16: more than 6 plies asked for.
    TooManyPlies = 16,
    /// 17: a small table that an ending with two men or a pawn leads into is not accepted.
    NotAccepted = 17,
    /// 18: a pawn on rank 1 or 8; after 3 and before 4.
    BadPawn = 18,
    /// 19: more than 99 plies since the last capture.
    TooManyQuiet = 19,
}

impl Refusal {
    /// All of them, in order.
    pub const ALL: [Refusal; 19] = [
        Refusal::BadMan,
        Refusal::BadSide,
        Refusal::BadSquare,
        Refusal::SharedSquare,
        Refusal::KingsTouch,
        Refusal::OtherInCheck,
        Refusal::TableLength,
        Refusal::NumberTooHigh,
        Refusal::NumberUnused,
        Refusal::TooDeep,
        Refusal::Inconsistent,
        Refusal::BadLine,
        Refusal::BadCheck,
        Refusal::WrongSet,
        Refusal::NotInSet,
        Refusal::TooManyPlies,
        Refusal::NotAccepted,
        Refusal::BadPawn,
        Refusal::TooManyQuiet,
    ];

    /// The refusal with this number, if there is one.
    pub fn from_code(code: u8) -> Option<Refusal> {
        Refusal::ALL.into_iter().find(|refusal| refusal.code() == code)
    }

    /// Its number.
    pub fn code(self) -> u8 {
        self as u8
    }

    /// What it says of what was keyed or lent, in chess words.
    pub fn reason(self) -> &'static str {
        match self {
            Refusal::BadMan => {
                "not one man besides the kings, or two where two are served: queen, rook, bishop, \
                 knight, or a pawn alone where he is served"
            }
            Refusal::BadSide => "the side to move, or the man's, is neither White nor Black",
            Refusal::BadSquare => "a square that is not on the board",
            Refusal::SharedSquare => "two men on one square",
            Refusal::KingsTouch => "the kings stand side by side",
            Refusal::OtherInCheck => "the side that is not to move is in check",
            Refusal::TableLength => "a table is not as long as its ending's, or the pocket not 14,784 bytes",
            Refusal::NumberTooHigh => {
                "no position has so high a number; the last is 59,135, with two men 3,784,703, with \
                 a pawn 196,607"
            }
            Refusal::NumberUnused => "no position has this number",
            Refusal::TooDeep => "a mate takes more than 253 plies, which no table can say",
            Refusal::Inconsistent => {
                "the table does not fit the positions that the moves lead to, or the pocket has no \
                 entry: it is another ending's, or damaged"
            }
            Refusal::BadLine => "not a line of the desk",
            Refusal::BadCheck => "the check digits are wrong: a digit is mistyped",
            Refusal::WrongSet => "not a right set of tables, or not as long as its endings need",
            Refusal::NotInSet => "there is no table of this ending here",
            Refusal::TooManyPlies => "a second opinion goes 6 plies deep at most",
            Refusal::NotAccepted => {
                "a table of one piece, which captures or promotions lead into, is not right"
            }
            Refusal::BadPawn => "a pawn stands on the first or the eighth rank",
            Refusal::TooManyQuiet => "at most 99 plies since the last capture can be keyed",
        }
    }
}

/// `refused 4: two men on one square`.
impl fmt::Display for Refusal {
    fn fmt(&self, out: &mut fmt::Formatter) -> fmt::Result {
        write!(out, "refused {}: {}", self.code(), self.reason())
    }
}

impl std::error::Error for Refusal {}

#[cfg(test)]
mod tests {
    use super::*;

    #[test]
    fn numbers_come_back() {
        for code in 0..=255 {
            let expected = matches!(code, 1..=19).then_some(code);
            assert_eq!(Refusal::from_code(code).map(Refusal::code), expected);
        }
    }

    #[test]
    fn words() {
        assert_eq!(Refusal::SharedSquare.to_string(), "refused 4: two men on one square");
    }
}
