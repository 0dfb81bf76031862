//! The board in text and as a picture.

use sledgewren::{Keyed, KeyedMan, Man, Move, Side, Square};

use crate::words;

/// The letter of what stands on a square; capitals are White's.
pub fn on(board: Keyed, square: Square) -> Option<char> {
    if square.code() == board.white_king {
        return Some(words::king(Side::White));
    }
    if square.code() == board.black_king {
        return Some(words::king(Side::Black));
    }
    let man = board.men.into_iter().flatten().find(|man| man.square == square.code())?;
    let owner = Side::from_code(man.colour)?;
    match man.kind {
        KeyedMan::PAWN => Some(words::pawn(owner)),
        kind => Some(Man::from_code(kind)?.letter_of(owner)),
    }
}

const FILES: &str = "    a b c d e f g h\n";

/// Eight ranks with their names, the eighth on top.
pub fn text(keyed: impl Into<Keyed>) -> String {
    let keyed = keyed.into();
    let mut board = String::from(FILES);
    for rank in (0..8).rev() {
        board += &format!("  {}", rank + 1);
        for file in 0..8 {
            let square = Square::from_code(8 * rank + file);
            let letter = square.and_then(|square| on(keyed, square)).unwrap_or('.');
            board += &format!(" {letter}");
        }
        board += &format!(" {}\n", rank + 1);
    }
    board + FILES
}

/// A square's width in the picture, and the border's.
const SIDE: u32 = 48;
const BORDER: u32 = 24;

/// The middle of a square.
fn middle(square: Square) -> (u32, u32) {
    let (file, rank) = (square.file() as u32, square.rank() as u32);
    (BORDER + SIDE * file + SIDE / 2, BORDER + SIDE * (7 - rank) + SIDE / 2)
}

fn figure(letter: char) -> char {
    match letter {
        'K' => '\u{2654}',
        'Q' => '\u{2655}',
        'R' => '\u{2656}',
        'B' => '\u{2657}',
        'N' => '\u{2658}',
        'P' => '\u{2659}',
        'k' => '\u{265A}',
        'q' => '\u{265B}',
        'r' => '\u{265C}',
        'b' => '\u{265D}',
        'n' => '\u{265E}',
        _ => '\u{265F}',
    }
}

fn squares() -> String {
    let mut text = String::new();
    for square in Square::all() {
        let (x, y) = middle(square);
        let dark = (square.file() + square.rank()) % 2 == 0;
        let colour = if dark { "#b58863" } else { "#f0d9b5" };
        let (left, top) = (x - SIDE / 2, y - SIDE / 2);
        text += &format!(
            "<rect x=\"{left}\" y=\"{top}\" width=\"{SIDE}\" height=\"{SIDE}\" fill=\"{colour}\"/>\n"
        );
    }
    text
}

fn names() -> String {
    let mut text = String::new();
    for place in 0..8u32 {
        let along = BORDER + SIDE * place + SIDE / 2;
        let (file, rank) = ((b'a' + place as u8) as char, 8 - place);
        let end = BORDER + 8 * SIDE + 16;
        text += &format!("<text x=\"{along}\" y=\"{end}\" font-size=\"12\">{file}</text>\n");
        let y = along + 4;
        text += &format!("<text x=\"12\" y=\"{y}\" font-size=\"12\">{rank}</text>\n");
    }
    text
}

fn arrow(chosen: Move) -> String {
    let ((x1, y1), (x2, y2)) = (middle(chosen.from), middle(chosen.to));
    format!(
        "<line x1=\"{x1}\" y1=\"{y1}\" x2=\"{x2}\" y2=\"{y2}\" stroke=\"#2e7d32\" \
         stroke-width=\"6\" stroke-opacity=\"0.75\" marker-end=\"url(#head)\"/>\n"
    )
}

/// The board with the move as an arrow, and a line of words under it.
pub fn svg(keyed: Keyed, name: &str, best: Option<Move>, words: &str) -> String {
    let (wide, tall) = (2 * BORDER + 8 * SIDE, 2 * BORDER + 8 * SIDE + 28);
    let mut text = format!(
        "<svg xmlns=\"http://www.w3.org/2000/svg\" viewBox=\"0 0 {wide} {tall}\" width=\"{wide}\" \
         height=\"{tall}\" font-family=\"Helvetica, Arial, sans-serif\" text-anchor=\"middle\">\n\
         <title>{name}: {words}</title>\n\
         <defs><marker id=\"head\" markerWidth=\"4\" markerHeight=\"4\" refX=\"2.4\" refY=\"2\" \
         orient=\"auto\"><path d=\"M0,0 L4,2 L0,4 z\" fill=\"#2e7d32\"/></marker></defs>\n\
         <rect width=\"{wide}\" height=\"{tall}\" fill=\"#ffffff\"/>\n"
    );
    text += &squares();
    text += &names();
    for square in Square::all() {
        let Some(letter) = on(keyed, square) else { continue };
        let ((x, y), figure) = (middle(square), figure(letter));
        let y = y + 14;
        text += &format!("<text x=\"{x}\" y=\"{y}\" font-size=\"40\">{figure}</text>\n");
    }
    text += &best.map_or(String::new(), arrow);
    let (x, y) = (wide / 2, tall - 14);
    text += &format!("<text x=\"{x}\" y=\"{y}\" font-size=\"14\">{words}</text>\n</svg>\n");
    text
}
