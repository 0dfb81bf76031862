//! The static library's functions as C has them (`include/sledgewren.h`).
//!
//! Each is total on values and lengths. A pointer must not be null and must lead to as many bytes
//! as its length says, and buffers lent to one call must not overlap, but that the two small tables
//! may be one. The crate's other functions see to that; nothing else need call these.
//!
//! Values come first, then buffers that are only read, then buffers that are written to.
//!
//! `white` and `black` are the kings' squares. A man besides them is a word: bits 0-7 kind, 8-15
//! colour, 16-23 square; he is absent where bits 24-31 are 0. An ending is a word: one man's kind;
//! or bits 0-7 the first man's kind, 8-15 1 + the second's, bit 16 one each. A pawn, who stands
//! alone, has kind 4. With one piece the small tables are not read; with a pawn the first is the
//! four pieces' tables one after the other, and the second is not read.

extern "C" {
    /// The number, or 0x80000000 + refusal.
    pub fn sledgewren_number(side: u8, white: u8, black: u8, first: u32, second: u32) -> u32;

    /// Bits 0-7 refusal, 8-15 side, 16-23 white king, 24-31 the first man's square, 32-39 black
    /// king, 40-47 the second man's square, 64 where there is none.
    pub fn sledgewren_position(ending: u32, number: u32) -> u64;

    /// The ending of two men, or all bits set.
    pub fn sledgewren_ending(first: u32, second: u32) -> u32;

    /// How many bytes an ending's table has; 0 where there is no such ending.
    pub fn sledgewren_table_bytes(ending: u32) -> u32;

    /// Bits 0-7 refusal, 8-15 the first digit as a character, and so on to 56-63, the seventh.
    pub fn sledgewren_write_number(number: u32) -> u64;

    /// Bits 0-7 refusal, 8-15 count of legal moves.
    pub fn sledgewren_count(side: u8, white: u8, black: u8, first: u32, second: u32) -> u32;

    /// As the count. Where `len` is 248 it writes 62 places of four bytes: from-square, to-square,
    /// 1 if the move takes a man, and what a pawn becomes, 0 for nothing or 1 + kind; with any
    /// other `len` it writes nothing and answers 255.
    pub fn sledgewren_moves(
        side: u8,
        white: u8,
        black: u8,
        first: u32,
        second: u32,
        moves: *mut u8,
        len: usize,
    ) -> u32;

    /// Bits 0-7 refusal, bit 8 side, bit 15 the move is not legal, 16-23 white king, 24-31 black
    /// king, 32-47 the first man, 48-63 the second; a man's bits 0-3 kind, bit 4 colour, bit 5 he
    /// is there, 8-15 square. `becomes` is what a pawn becomes: 0 for nothing, or 1 + kind.
    pub fn sledgewren_play(
        side: u8,
        white: u8,
        black: u8,
        first: u32,
        second: u32,
        from: u8,
        to: u8,
        becomes: u8,
    ) -> u64;

    /// Bits 0-7 refusal, bit 8 some position is decided, 16-23 greatest depth.
    pub fn sledgewren_fill(
        ending: u32,
        small_first: *const u8,
        small_first_len: usize,
        small_second: *const u8,
        small_second_len: usize,
        table: *mut u8,
        len: usize,
    ) -> u32;

    /// As `sledgewren_fill`, quicker.
    pub fn sledgewren_fill_back(
        ending: u32,
        small_first: *const u8,
        small_first_len: usize,
        small_second: *const u8,
        small_second_len: usize,
        table: *mut u8,
        len: usize,
    ) -> u32;

    /// Bits 0-7 refusal, 8-31 how many numbers were settled, which is 0, 32-63 the progress.
    pub fn sledgewren_fill_start(ending: u32, table: *mut u8, len: usize) -> u64;

    /// Bits 0-7 refusal, 8-31 how many numbers the step settled, 32-63 the progress.
    pub fn sledgewren_fill_step(
        ending: u32,
        progress: u32,
        small_first: *const u8,
        small_first_len: usize,
        small_second: *const u8,
        small_second_len: usize,
        table: *mut u8,
        len: usize,
    ) -> u64;

    /// Bits 0-7 refusal, bit 8 wrong, 32-63 the lowest wrong number.
    pub fn sledgewren_check(
        ending: u32,
        small_first: *const u8,
        small_first_len: usize,
        small_second: *const u8,
        small_second_len: usize,
        table: *const u8,
        len: usize,
    ) -> u64;

    /// Bits 0-7 refusal, 8-15 value (1 win, 2 loss, 3 draw), 16-23 depth, bit 24 a move is given,
    /// bit 25 within fifty at this count of plies since the last capture, 32-39 from, 40-47 to,
    /// bit 48 it takes a man, 56-63 what a pawn becomes, 0 for nothing or 1 + kind.
    pub fn sledgewren_look_up(
        side: u8,
        white: u8,
        black: u8,
        first: u32,
        second: u32,
        plies: u32,
        small_first: *const u8,
        small_first_len: usize,
        small_second: *const u8,
        small_second_len: usize,
        table: *const u8,
        len: usize,
    ) -> u64;

    /// Bits 0-7 refusal, 8-15 value (1 win, 2 loss, 4 not within so many plies), 16-23 depth.
    pub fn sledgewren_second_opinion(
        side: u8,
        white: u8,
        black: u8,
        first: u32,
        second: u32,
        plies: u8,
    ) -> u32;

    /// Bits 0-7 length of the slip, 8-15 the man held afterwards. Where `slip_len` is 16 it writes
    /// the slip; with any other `slip_len` it writes nothing and answers 0xFFFF.
    pub fn sledgewren_answer_line(
        held: u8,
        line: *const u8,
        line_len: usize,
        table: *mut u8,
        table_len: usize,
        slip: *mut u8,
        slip_len: usize,
    ) -> u32;

    /// 0, or refusal 7: then nothing is written.
    pub fn sledgewren_pack(
        table: *const u8,
        table_len: usize,
        pocket: *mut u8,
        pocket_len: usize,
    ) -> u32;

    /// Bits 0-7 refusal, 8-15 value (1 win, 2 loss, 3 draw).
    pub fn sledgewren_pocket_look_up(
        side: u8,
        white: u8,
        black: u8,
        first: u32,
        second: u32,
        pocket: *const u8,
        len: usize,
    ) -> u32;

    /// Bits 0-15 numbers with entry 0, 16-31 draws, 32-47 wins, 48-63 losses; or refusal 7 as
    /// the word 7.
    pub fn sledgewren_tallies(pocket: *const u8, len: usize) -> u64;

    /// The refusal, or 0. A man's byte is 0 for no and any other for yes.
    pub fn sledgewren_set_write(
        queen: u8,
        rook: u8,
        bishop: u8,
        knight: u8,
        set: *mut u8,
        len: usize,
    ) -> u32;

    /// The refusal, or 0. It writes the header alone.
    pub fn sledgewren_set_start(
        queen: u8,
        rook: u8,
        bishop: u8,
        knight: u8,
        set: *mut u8,
        len: usize,
    ) -> u32;

    /// Bits 0-7 refusal, bit 8 some position is decided, 16-23 greatest depth.
    pub fn sledgewren_set_fill(man: u8, set: *mut u8, len: usize) -> u32;

    /// Bits 0-7 refusal, 8-31 length of the table, 32-63 its offset.
    pub fn sledgewren_set_find(man: u8, set: *const u8, len: usize) -> u64;

    /// Bits 0-7 patch, 8-15 minor, 16-23 major.
    pub fn sledgewren_version_number() -> u32;
}
