//! Two kings and one piece, two pieces or one pawn of either side: positions are numbered, their
//! tables filled and checked, positions looked up, and, with one piece, a desk's lines answered. A
//! pocket is a table packed to won, drawn and lost.
//!
//! Every answer comes from the proved static library that this crate links; the crate gives it
//! Rust's types and adds no chess of its own. Depths count plies. A refusal is an `Err` with its
//! reason, and no input whatever leads to a panic.
//!
//! ```
//! use sledgewren::{Accepted, Man, Position};
//!
//! let table = Accepted::filled(Man::Queen)?;
//! let position: Position = "Q w b3 h2 a1".parse()?;
//! let answer = table.look_up(position)?;
//! assert_eq!(answer.depth(), Some(1));
//! assert_eq!(answer.to_string(), "win 1 h2a2");
//! # Ok::<(), Box<dyn std::error::Error>>(())
//! ```
//!
//! | Entry point | On any bytes | On the crate's types |
//! |---|---|---|
//! | `sledgewren_number` | [`entry::number`] | [`Position::number`] |
//! | `sledgewren_position` | [`entry::position`] | [`Position::from_number`] |
//! | `sledgewren_ending` | [`entry::ending`] | [`Ending::of`] |
//! | `sledgewren_table_bytes` | [`entry::table_bytes`] | [`Ending::table_bytes`] |
//! | `sledgewren_write_number` | [`entry::write_number`] | [`Typed::of`], [`Position::typed`] |
//! | `sledgewren_count` | [`entry::count`] | [`Position::count`] |
//! | `sledgewren_moves` | [`entry::moves`] | [`Position::moves`] |
//! | `sledgewren_play` | [`entry::play`] | [`Position::play`], [`Keyed::play`] |
//! | `sledgewren_fill` | [`entry::fill`] | [`KingAndPawn::filled`] |
//! | `sledgewren_fill_back` | [`entry::fill_back`] | [`Table::fill`], [`Table::filled`], [`FourMen::filled`] |
//! | `sledgewren_fill_start` | [`entry::fill_start`] | [`Filling::start`], [`FourMen::filled_with_progress`], [`KingAndPawn::filled_with_progress`] |
//! | `sledgewren_fill_step` | [`entry::fill_step`] | [`Filling::step`], [`FourMen::filled_with_progress`], [`KingAndPawn::filled_with_progress`] |
//! | `sledgewren_check` | [`entry::check`] | [`Table::check`], [`Table::accept`], [`FourMen::accept`], [`KingAndPawn::accept`] |
//! | `sledgewren_look_up` | [`entry::look_up`] | [`Table::look_up`], [`Accepted::look_up`], [`FourMen::look_up`], [`KingAndPawn::look_up`], [`Set::look_up`] |
//! | the same, with a count | [`entry::look_up_at`] | [`Table::look_up_at`], [`Accepted::look_up_at`], [`FourMen::look_up_at`], [`KingAndPawn::look_up_at`] |
//! | `sledgewren_second_opinion` | [`entry::second_opinion`] | [`second_opinion`] |
//! | `sledgewren_answer_line` | [`entry::answer_line`] | [`Desk::answer`], [`Desk::run`] |
//! | `sledgewren_pack` | [`entry::pack`] | [`Pocket::packed`], [`Pocket::of_table`] |
//! | `sledgewren_pocket_look_up` | [`entry::pocket_look_up`] | [`Pocket::look_up`] |
//! | `sledgewren_tallies` | [`entry::tallies`] | [`Pocket::tallies`] |
//! | `sledgewren_set_write` | [`entry::set_write`] | [`Set::written`] |
//! | `sledgewren_set_start` | [`entry::set_start`] | [`Set::written_by_endings`] |
//! | `sledgewren_set_fill` | [`entry::set_fill`] | [`Set::written_by_endings`] |
//! | `sledgewren_set_find` | [`entry::set_find`] | [`Set::from_bytes`], [`Set::table`] |
//! | `sledgewren_version_number` | [`entry::version`] | |

#![deny(missing_docs, missing_debug_implementations)]

mod answer;
mod desk;
mod ending;
pub mod entry;
pub mod ffi;
mod filling;
mod four_men;
mod man;
mod moves;
mod opinion;
mod parse;
mod pawn;
mod played;
mod pocket;
mod position;
mod refusal;
mod set;
mod square;
mod table;
mod typed;

pub use answer::{Answer, Checked, Marked, Value};
pub use desk::{Desk, Slip, SLIP_BYTES};
pub use ending::Ending;
pub use filling::{Filling, Progress, Settled, Stage, Step};
pub use four_men::{FourMen, NotAcceptedLarge, LARGE_TABLE_BYTES};
pub use man::{Man, Side};
pub use moves::{Move, Moves, MOST_MOVES, MOVES_BYTES};
pub use opinion::{second_opinion, Opinion, MOST_PLIES};
pub use parse::NotRead;
pub use pawn::{FourTables, KingAndPawn, FOUR_TABLES_BYTES, PAWN_TABLE_BYTES};
pub use played::Played;
pub use pocket::{Outcome, Pocket, Tallies, POCKET_BYTES};
pub use position::{Keyed, KeyedMan, Position};
pub use refusal::Refusal;
pub use set::{Choice, Set};
pub use square::Square;
pub use table::{Accepted, NotAccepted, Table, TABLE_BYTES};
pub use typed::{Typed, TYPED_DIGITS};
