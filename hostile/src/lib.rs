//! What the hostile programs share: the sequence, the lines, the calls, the pockets, how they begin and
//! end, and running a desk.

pub mod calls;
pub mod exchange;
pub mod feed;
pub mod fifty;
pub mod lent;
pub mod lines;
pub mod pawn;
pub mod pawn_due;
pub mod pawn_steps;
pub mod pawn_tables;
pub mod pocket;
pub mod running;
pub mod sequence;
pub mod steps;
pub mod turns;
pub mod two;
pub mod two_tables;
pub mod typed;
pub mod words;
pub mod written;
