//! Filling in steps: runs beside the single fill, and a step on any bytes and any progress.

use sledgewren::entry::{self, Lent};
use sledgewren::{entry::fill_step, TABLE_BYTES};
use sledgewren::{Filling, Man, Progress, Refusal, Settled, Stage, Step, Table};

fn word(stage: u32, next: u32, last: u32) -> Progress {
    Progress::from_word(stage | next << 8 | last << 24)
}

#[test]
fn a_run_leaves_what_the_fill_leaves() {
    for man in Man::ALL {
        let mut filling = Filling::start(man);
        let legal = filling.legal();
        let depths: Vec<Settled> = filling.by_ref().collect();
        let mut filled = Table::zeroed();
        let greatest = filled.fill(man).unwrap();
        assert!(filling.table() == &filled, "{man}");
        assert_eq!(filling.progress().stage(), Stage::Done(greatest), "{man}");
        for (depth, settled) in depths.iter().enumerate() {
            let bytes = filled.bytes().iter().filter(|&&byte| byte as usize == depth + 2).count();
            assert_eq!(*settled, Settled { depth: depth as u8, count: bytes as u32 }, "{man}");
        }
        assert_eq!(depths.last().map(|settled| settled.depth), greatest, "{man}");
        let decided = filled.bytes().iter().filter(|&&byte| byte > 1).count() as u32;
        assert_eq!((filling.settled(), filling.legal()), (decided, legal), "{man}");
        // Steps past the end.
        let over = filling.clone();
        assert_eq!((filling.next(), filling.step()), (None, Ok(Step::Done(greatest))), "{man}");
        assert!(filling == over && filling.finish() == Ok((filled, greatest)), "{man}");
    }
}

#[test]
fn k_steps_leave_the_depths_below_k_and_the_start() {
    let filled = Table::filled(Man::Queen).unwrap();
    let mut filling = Filling::start(Man::Queen);
    for taken in 0..25 {
        for (number, (&byte, &due)) in
            filling.table().bytes().iter().zip(filled.bytes()).enumerate()
        {
            let settled = due > 1 && due - 2 < taken;
            assert_eq!(byte, if settled { due } else { due.min(1) }, "{number} after {taken}");
        }
        filling.step().unwrap();
    }
}

#[test]
fn none_settled_is_done_with_one_depth_less_whatever_was_last() {
    for next in [0, 1, 2, 7, 253, 254, 255, 300, 65_535] {
        for last in [0, 1, 20, 255] {
            // Nothing holds 1, so nothing is settled.
            let mut bytes = vec![3; TABLE_BYTES];
            let (said, progress) =
                fill_step(Man::Rook, word(0, next, last), Lent::NONE, &mut bytes);
            let k = next.min(254);
            assert_eq!(said, Ok(Step::Done((k as u8).checked_sub(1))), "{next} {last}");
            assert_eq!(progress, word(1, k, k), "{next} {last}");
            assert_eq!(bytes, vec![3; TABLE_BYTES]);
            assert_eq!(fill_step(Man::Rook, progress, Lent::NONE, &mut bytes), (said, progress));
        }
    }
}

#[test]
fn depth_254_gives_10_and_clears_the_table() {
    for next in [254, 255, 300, 65_535] {
        // White is won in 253 everywhere, so Black is lost in 254 wherever he has moves and
        // takes nothing.
        let mut bytes = vec![255; TABLE_BYTES];
        bytes[TABLE_BYTES / 2..].fill(1);
        let (said, progress) = fill_step(Man::Queen, word(0, next, 9), Lent::NONE, &mut bytes);
        assert_eq!((said, progress), (Err(Refusal::TooDeep), word(2, 254, 254)), "{next}");
        assert_eq!(bytes, vec![0; TABLE_BYTES]);
        bytes.fill(1);
        assert_eq!(fill_step(Man::Queen, progress, Lent::NONE, &mut bytes), (said, progress));
        assert_eq!(bytes, vec![1; TABLE_BYTES]);
    }
}

#[test]
fn what_was_said_is_repeated_whole() {
    let mut bytes = vec![1; TABLE_BYTES];
    for (progress, said) in [
        (word(1, 0, 0), Ok(Step::Done(None))),
        (word(1, 300, 1), Ok(Step::Done(Some(0)))),
        (word(1, 12, 255), Ok(Step::Done(Some(254)))),
        (word(2, 0, 0), Err(Refusal::TooDeep)),
        (word(3, 1, 2), Err(Refusal::TooDeep)),
        (word(255, 65_535, 255), Err(Refusal::TooDeep)),
    ] {
        assert_eq!(fill_step(Man::Knight, progress, Lent::NONE, &mut bytes), (said, progress));
    }
    assert_eq!(bytes, vec![1; TABLE_BYTES]);
}

#[test]
fn refusals_1_and_7_leave_table_and_progress() {
    let cases = [
        (5u32, TABLE_BYTES, 1),
        (255, 0, 1),
        (4, TABLE_BYTES, 7),
        (0, TABLE_BYTES - 1, 7),
        (3, 0, 7),
    ];
    for (man, length, code) in cases {
        let refused = Refusal::from_code(code).unwrap();
        let mut bytes = vec![1; length];
        assert_eq!(entry::fill_start(man, &mut bytes), Err(refused));
        for progress in [0, 0x0100, 0x0300_fe00, 0x1500_1401, 0xffff_ffff].map(Progress::from_word)
        {
            let found = fill_step(man, progress, Lent::NONE, &mut bytes);
            assert_eq!(found, (Err(refused), progress), "{man} {length}");
        }
        assert_eq!(bytes, vec![1; length]);
    }
}
