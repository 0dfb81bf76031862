//! Greatest depths as printed in document 000, tables 8a and 8b: the winner's moves for 1-0 wins.

use sledgewren::{Man, Side};

/// KQK and KRK in table 8b, KBK and KNK in table 8a, where a dash says that there is no win.
pub fn printed(man: Man, side: Side) -> Option<u8> {
    match (man, side) {
        (Man::Queen, Side::White | Side::Black) => Some(10),
        (Man::Rook, Side::White | Side::Black) => Some(16),
        (Man::Bishop | Man::Knight, _) => None,
    }
}

/// Plies as the winner's moves: (n + 1) / 2, rounded down.
pub fn moves(plies: Option<u8>) -> Option<u8> {
    plies.map(|plies| plies.div_ceil(2))
}

/// A depth, or a dash.
pub fn text(depth: Option<u8>) -> String {
    depth.map_or("-".to_string(), |depth| depth.to_string())
}

/// The greatest depth in plies of one side's half of a table.
pub fn greatest(table: &[u8], side: Side) -> Option<u8> {
    let half = table.len() / 2;
    let bytes = table.iter().skip(side.code() as usize * half).take(half);
    bytes.copied().filter(|&byte| byte >= 2).max().map(|byte| byte - 2)
}
