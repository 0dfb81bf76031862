//! Buffers of the wrong length, straight at the C functions: nothing is written.

use sledgewren::ffi;
use sledgewren::{MOVES_BYTES, TABLE_BYTES};

const DIRT: u8 = 165;

fn untouched(bytes: &[u8]) -> bool {
    bytes.iter().all(|&byte| byte == DIRT)
}

fn moves(keyed: [u8; 5], bytes: &mut [u8]) -> u32 {
    let [man, side, white, square, black] = keyed;
    let first = u32::from_le_bytes([man, 0, square, 1]);
    let (start, len) = (bytes.as_mut_ptr(), bytes.len());
    // SAFETY: `start` leads to `len` bytes that nothing else refers to.
    unsafe { ffi::sledgewren_moves(side, white, black, first, 0, start, len) }
}

#[test]
fn move_lists() {
    for len in [0, 1, 62, 70, 140, MOVES_BYTES - 1, MOVES_BYTES + 1, 2 * MOVES_BYTES] {
        for keyed in [[0, 0, 17, 15, 0], [9, 9, 99, 99, 99]] {
            let mut bytes = vec![DIRT; len];
            assert_eq!(moves(keyed, &mut bytes), 255, "{len} bytes");
            assert!(untouched(&bytes), "{len} bytes");
        }
    }
}

#[test]
fn every_byte_of_the_list_is_written() {
    let mut bytes = [DIRT; MOVES_BYTES];
    assert_eq!(moves([1, 1, 0, 32, 36], &mut bytes), 6 << 8);
    let mut expected = [0; MOVES_BYTES];
    for (place, to) in [27, 28, 29, 43, 44, 45].into_iter().enumerate() {
        expected[4 * place..4 * place + 2].copy_from_slice(&[36, to]);
    }
    assert_eq!(bytes, expected);
    // Kh8 Qb2 against Ka1: the only move takes
    bytes.fill(DIRT);
    assert_eq!(moves([0, 1, 63, 9, 0], &mut bytes), 1 << 8);
    let mut expected = [0; MOVES_BYTES];
    expected[..4].copy_from_slice(&[0, 9, 1, 0]);
    assert_eq!(bytes, expected);
    bytes.fill(DIRT);
    assert_eq!(moves([0, 0, 17, 9, 0], &mut bytes), 6);
    assert_eq!(bytes, [0; MOVES_BYTES]);
}

fn answer_line(line: &[u8], held: u8, table: &mut [u8], slip: &mut [u8]) -> u32 {
    // SAFETY: each pointer leads to as many bytes as its length says, and the slices are apart.
    unsafe {
        ffi::sledgewren_answer_line(
            held,
            line.as_ptr(),
            line.len(),
            table.as_mut_ptr(),
            table.len(),
            slip.as_mut_ptr(),
            slip.len(),
        )
    }
}

#[test]
fn slips() {
    let mut table = vec![DIRT; TABLE_BYTES];
    for len in [0, 1, 11, 15, 17, 32] {
        let mut slip = vec![DIRT; len];
        for line in [&b"Q w b3 h2 a1"[..], b"Q # 0204962", b""] {
            assert_eq!(answer_line(line, 4, &mut table, &mut slip), 0xFFFF, "{len} bytes");
            assert!(untouched(&slip) && untouched(&table), "{len} bytes");
        }
    }
}

#[test]
fn every_byte_of_the_slip_is_written() {
    let mut table = vec![DIRT; TABLE_BYTES];
    let mut slip = [DIRT; 16];
    let answer = answer_line(b"Q w b3 h2 a1", 200, &mut table, &mut slip);
    assert_eq!(answer, 11, "the queen, 0, is held, and the slip has 11 bytes");
    assert_eq!(&slip, b"win 1 h2a2\n\0\0\0\0\0");
    assert!(!table.contains(&DIRT));
}

#[test]
fn a_desk_table_of_another_length() {
    for len in [0, TABLE_BYTES - 1, TABLE_BYTES + 1] {
        let mut table = vec![DIRT; len];
        let mut slip = [DIRT; 16];
        let answer = answer_line(b"Q w b3 h2 a1", 0, &mut table, &mut slip);
        assert_eq!((answer & 255, &slip), (10, b"refused 7\n\0\0\0\0\0\0"), "{len} bytes");
        assert!(untouched(&table), "{len} bytes");
    }
}
