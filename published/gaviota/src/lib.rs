//! Gaviota's published tables, probed through libgaviotatb: two kings and one man or pawn of
//! either side.

use std::ffi::{c_char, c_int, c_uchar, c_uint, CString};

/// As in `gtb-probe.h`.
const DRAW: c_uint = 0;
const WHITE_MATES: c_uint = 1;
const BLACK_MATES: c_uint = 2;
const FORBIDDEN: c_uint = 3;
const NO_SQUARE: c_uint = 64;
const NO_CASTLING: c_uint = 0;
const NO_PIECE: c_uchar = 0;
const KING: c_uchar = 6;
const SCHEME_4: c_int = 4;

/// Queen, rook, bishop, knight, pawn.
const PIECES: [c_uchar; 5] = [5, 4, 3, 2, 1];

/// Room for the decompressed tables of all five endings.
const CACHE: usize = 32 << 20;

#[link(name = "gaviotatb")]
extern "C" {
    fn tbpaths_init() -> *mut *const c_char;
    fn tbpaths_add(paths: *mut *const c_char, path: *const c_char) -> *mut *const c_char;
    fn tb_init(verbosity: c_int, scheme: c_int, paths: *mut *const c_char) -> *mut c_char;
    fn tbcache_init(bytes: usize, wdl_fraction: c_int) -> c_int;
    fn tb_availability() -> c_uint;
    fn tb_probe_hard(
        side: c_uint,
        en_passant: c_uint,
        castling: c_uint,
        white_squares: *const c_uint,
        black_squares: *const c_uint,
        white_pieces: *const c_uchar,
        black_pieces: *const c_uchar,
        info: *mut c_uint,
        plies: *mut c_uint,
    ) -> c_int;
}

/// What Gaviota says of a position.
#[derive(Clone, Copy, PartialEq, Eq, Debug)]
pub enum Probed {
    /// The position is not legal.
    Forbidden,
    /// A draw.
    Draw,
    /// White mates in so many plies.
    WhiteMates(u32),
    /// Black mates in so many plies.
    BlackMates(u32),
    /// No table answers.
    Unknown,
}

/// The opened tables. The library keeps them for the whole process.
pub struct Gaviota(());

impl Gaviota {
    /// Opens the tables of compression scheme 4 in a folder. Call it once.
    pub fn open(folder: &str) -> Result<Gaviota, String> {
        let path = CString::new(folder).map_err(|_| "a folder's name holds no zero byte")?;
        // SAFETY: as tbprobe, Gaviota's example, calls them; `path` lives on below.
        let available = unsafe {
            tb_init(0, SCHEME_4, tbpaths_add(tbpaths_init(), path.as_ptr()));
            // A fraction of 0: the whole cache for depths, none for values without depth.
            if tbcache_init(CACHE, 0) == 0 {
                return Err("Gaviota's cache cannot be set up".to_string());
            }
            tb_availability()
        };
        // The paths are kept by address.
        std::mem::forget(path);
        match available & 1 {
            1 => Ok(Gaviota(())),
            _ => Err(format!("there are no tables of Gaviota's scheme 4 in {folder}")),
        }
    }

    /// Probes a position: the man's kind, colour and square, the side to move and the kings'
    /// squares, all as Sledgewren has them.
    #[inline]
    pub fn probe(
        &self,
        [kind, colour, square]: [u8; 3],
        side: u8,
        [white_king, black_king]: [u8; 2],
    ) -> Probed {
        let with_man = |king: u8| [king as c_uint, square as c_uint, NO_SQUARE];
        let alone = |king: u8| [king as c_uint, NO_SQUARE, NO_SQUARE];
        let man_pieces = [KING, PIECES[kind as usize % PIECES.len()], NO_PIECE];
        let king_pieces = [KING, NO_PIECE, NO_PIECE];
        let (white, white_pieces, black, black_pieces) = match colour {
            0 => (with_man(white_king), man_pieces, alone(black_king), king_pieces),
            _ => (alone(white_king), king_pieces, with_man(black_king), man_pieces),
        };
        let (mut info, mut plies) = (0, 0);
        // SAFETY: the lists end as the library asks, and it writes one number to each result.
        let found = unsafe {
            tb_probe_hard(
                side as c_uint,
                NO_SQUARE,
                NO_CASTLING,
                white.as_ptr(),
                black.as_ptr(),
                white_pieces.as_ptr(),
                black_pieces.as_ptr(),
                &mut info,
                &mut plies,
            )
        };
        match info {
            _ if found == 0 => Probed::Unknown,
            DRAW => Probed::Draw,
            WHITE_MATES => Probed::WhiteMates(plies),
            BLACK_MATES => Probed::BlackMates(plies),
            FORBIDDEN => Probed::Forbidden,
            _ => Probed::Unknown,
        }
    }
}
