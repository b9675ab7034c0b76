//! Which cases of the room keeper are told apart, worked out by hand.

use super::{cases_of_call, default, plane};
use crate::cases::blocks::{cases, met};
use crate::job::{Job, Part};
use crate::transfers::{fresh, Slot, Table, DONE, PREPARED, RUNNING};
use crate::wire::bytes_of;

const ALL: u64 = u64::MAX;

fn of_call(number: u8, arguments: Vec<u8>) -> String {
    cases_of_call((cases, met), number, arguments)
}

fn requested(word: u64, n: u32) -> String {
    of_call(0x50, bytes_of(&(word, n)))
}

#[test]
fn granted_runs() {
    assert_eq!(requested(0, 64), "64 blocks; from block 0; just as long as its gap; the only run");
    assert_eq!(requested(0, 1), "1 block; from block 0; shorter than its gap");
    // A gap of three, a taken block, and all the others.
    let wide = "from block 0; shorter than its gap; the lowest of several; lower than a wider gap";
    assert_eq!(requested(0b1000, 2), wide);
    assert_eq!(requested(0b1000, 4), "shorter than its gap; behind a gap too short");
    // Gaps of three and of two.
    let tight = "from block 0; shorter than its gap; the lowest of several; lower than a tighter gap";
    assert_eq!(requested(!0b11_0111, 2), tight);
    assert_eq!(requested(!0b11_0111, 3), "from block 0; just as long as its gap; the only run");
    assert_eq!(requested(!0b111_0110, 3), "just as long as its gap; behind a gap too short; the only run");
    assert_eq!(requested(ALL >> 2, 2), "up to the end; just as long as its gap; the only run");
}

#[test]
fn refused_requests() {
    assert_eq!(
        (requested(0, 0), requested(ALL, 0)),
        ("31 of no block".into(), "31 of no block; 31 of no block, all taken".into())
    );
    assert_eq!((requested(0, 65), requested(0, u32::MAX)), ("31 of 65 blocks".into(), "31 of 2^32 - 1 blocks".into()));
    assert_eq!(
        (requested(0, 257), requested(0, 256)),
        ("31 of a number that would do in 8 bits".into(), String::new())
    );
    assert_eq!(requested(ALL, 2), "32 with all taken");
    assert_eq!(requested(ALL, 1), "32 with all taken; 32 by one block");
    assert_eq!(requested(ALL, 64), "32 with all taken; 32 of 64 blocks");
    // Two free at the lower end, three at the upper.
    let ends = (ALL << 2) & (ALL >> 3);
    assert_eq!(requested(ends, 5), "32 with enough free, not neighbours; 32 but for a run round the end");
    assert_eq!(requested(ends, 6), "");
    assert_eq!(
        requested(ends, 4),
        "32 with enough free, not neighbours; 32 but for a run round the end; 32 by one block"
    );
    // Two in the midst and two apart from them.
    assert_eq!(requested(!0b1_1011_0000, 4), "32 with enough free, not neighbours");
    assert_eq!(requested(!0b1_1011_0000, 5), "");
}

#[test]
fn runs_that_there_are_not() {
    let asked = |first: u32, n: u32| of_call(0x54, bytes_of(&(6_400u64, first, n)));
    assert_eq!((asked(0, 0), asked(64, 0)), ("31 of no block".into(), "31 of no block".into()));
    assert_eq!(asked(0, 65), "31 of 65 blocks");
    assert_eq!((asked(0, u32::MAX), asked(70, 3)), ("31 of 2^32 - 1 blocks".into(), String::new()));
    assert_eq!(asked(1, u32::MAX), "31 of 2^32 - 1 blocks; 31 of a number with which the sum would wrap");
    assert_eq!((asked(63, 2), asked(63, 3)), ("31 by a block past the end".into(), String::new()));
    assert_eq!(asked(64, 1), "31 by a block past the end; 31 from block 64");
    assert_eq!((asked(256, 64), asked(257, 64)), ("31 from a block that would do in 8 bits".into(), String::new()));
    assert_eq!(asked(u32::MAX, 1), "31 from a block with which the sum would wrap");
    assert_eq!(
        (asked(u32::MAX, 65), asked(u32::MAX - 1, 1)),
        ("31 of 65 blocks; 31 of a number with which the sum would wrap".into(), String::new())
    );
    assert_eq!(asked(0, 300), "31 of a number that would do in 8 bits");
}

#[test]
fn parts() {
    let asked = |length: u64, first: u32, n: u32| of_call(0x54, bytes_of(&(length, first, n)));
    assert_eq!((asked(6_400, 3, 2), asked(64, 3, 2)), (String::new(), "of 64 bytes".into()));
    assert_eq!((asked(63, 3, 2), asked(63, 64, 2)), ("17 of 63 bytes".into(), "17 of 63 bytes; 17 and 31".into()));
    assert_eq!(asked(2_147_483_648, 3, 2), "17 of 2147483648 bytes");
    assert_eq!(
        (asked((1 << 32) + 64, 3, 2), asked(1 << 32, 3, 2)),
        ("17 of a length that would do in 32 bits".into(), String::new())
    );
    // 127 is 64 and 63: two blocks on, 126 / 64 is a byte more than none.
    let odd = "of a length with 63 bytes behind the blocks";
    assert_eq!(
        (asked(127, 1, 2), asked(127, 2, 2)),
        (odd.into(), format!("{odd}; of a start that each bound rounded would move"))
    );
    assert_eq!(asked(6_400, 0, 64), "64 blocks");
    let last = "of the longest memory, up to the end";
    assert_eq!(asked(2_147_483_647, 60, 4), format!("{last}; {odd}; of a start that each bound rounded would move"));
}

#[test]
fn counts() {
    let before = |word: u64| of_call(0x53, bytes_of(&word));
    assert_eq!((before(0b1000), before(ALL << 3)), ("more free behind".into(), "no more free behind".into()));
    assert_eq!(
        (before(0), before(1), before(ALL)),
        (String::new(), "more free behind".into(), "no more free behind".into())
    );
    assert_eq!(cases(0x52), [] as [&str; 0]);
}

/// A transfer of four bytes.
fn slot(state: u8, source: Part, destination: Part) -> Slot {
    let tensor = plane(&[4]);
    Slot {
        state,
        job: Job { source, destination, tensor, config: default(&tensor) },
        moved: [0, 0, 2, 4][state as usize],
    }
}

fn part(start: u64, length: u64) -> Part {
    Part { start, length }
}

fn given(table: Table, word: u64, first: u32, n: u32) -> String {
    of_call(0x51, bytes_of(&(table, word, first, n)))
}

#[test]
fn the_order() {
    let unsound = |length: u64| {
        let mut table = fresh(length).table;
        table.slot[0].moved = 1;
        table
    };
    let short = fresh(62).table;
    assert_eq!((given(short, ALL, 0, 1), given(short, 0, 0, 1)), (String::new(), "17 and 33".into()));
    assert_eq!((given(unsound(62), ALL, 0, 1), given(short, ALL, 64, 1)), ("17 and 18".into(), "17 and 31".into()));
    assert_eq!(given(fresh(63).table, ALL, 0, 1), "17 of 63 bytes");
    assert_eq!((given(unsound(64), ALL, 0, 1), given(unsound(64), 0, 0, 1)), (String::new(), "18 and 33".into()));
    assert_eq!(given(unsound(64), 0, 70, 1), "18 and 31");
    let long = Table { length: 2_147_483_648, ..Table::default() };
    assert_eq!(given(long, ALL, 0, 1), "18 by the length");
    let past = "31 by a block past the end";
    assert_eq!(
        (given(fresh(64).table, ALL, 62, 3), given(fresh(64).table, !(1 << 62), 62, 3)),
        (past.into(), format!("{past}; 31 and 33"))
    );
    assert_eq!(given(fresh(64).table, 0, 0, 0), "31 of no block");
}

#[test]
fn blocks_not_taken() {
    let asked = |word: u64, n: u32| given(fresh(6_400).table, word, 4, n);
    assert_eq!(asked(0b110_0000, 3), "33 by the first block");
    assert_eq!(asked(0b101_0000, 3), "33 by a block between");
    assert_eq!(asked(0b011_0000, 3), "33 by the last block");
    assert_eq!((asked(0b1000_1111, 3), asked(0b001_0000, 3)), ("33 by all blocks".into(), String::new()));
    assert_eq!(asked(0b1110_1111, 1), "33 by the only block");
    // Bytes of a slot besides.
    let mut table = fresh(6_400).table;
    table.slot[0] = slot(PREPARED, part(400, 4), part(0, 4));
    assert_eq!(given(table, 0b110_0000, 4, 3), "");
}

#[test]
fn bytes_of_slots() {
    // Blocks of 100 bytes: the run is 1,000 to 1,199.
    let asked = |k: usize, slot: Slot| {
        let mut table = fresh(6_400).table;
        table.slot[k] = slot;
        given(table, ALL, 10, 2)
    };
    let away = part(0, 4);
    assert_eq!(asked(0, slot(PREPARED, part(1_100, 4), away)), "33 by the source of a prepared slot; 33 by slot 0");
    assert_eq!(
        asked(1, slot(RUNNING, part(997, 4), away)),
        "33 by the source of a running slot; 33 by slot 1; 33 by the first byte"
    );
    assert_eq!(
        asked(2, slot(DONE, part(1_199, 4), away)),
        "33 by the source of a done slot; 33 by slot 2; 33 by the last byte"
    );
    assert_eq!(
        asked(3, slot(PREPARED, away, part(999, 202))),
        "33 by the destination of a prepared slot; 33 by slot 3; 33 by a part around"
    );
    assert_eq!(
        asked(0, slot(RUNNING, away, part(990, 20))),
        "33 by the destination of a running slot; 33 by slot 0; 33 by bytes that no element has"
    );
    assert_eq!(asked(0, slot(DONE, away, part(1_000, 200))), "33 by the destination of a done slot; 33 by slot 0");
    // Both parts.
    assert_eq!(asked(0, slot(DONE, part(1_000, 4), part(1_100, 4))), "");
}

#[test]
fn bounds_of_blocks() {
    // Blocks of 10 bytes and 63 bytes behind them: the run is 200 to 229. Rounded up it would be 220 to 252, and with
    // each bound rounded 219 to 251.
    let asked = |first: u32, n: u32, from: u64| {
        let mut table = fresh(703).table;
        table.slot[0] = slot(RUNNING, part(from, 4), part(0, 4));
        given(table, ALL, first, n)
    };
    let beside = "given back beside a running slot";
    let between = "given back from between taken ones";
    assert_eq!(asked(20, 3, 230), format!(
        "given back, but not if rounded up; given back, but not if each bound were rounded; given back, touched from behind; {between}; {beside}"
    ));
    let neither = "33, but not if rounded up; 33, but not if each bound were rounded";
    let source = "33 by the source of a running slot; 33 by slot 0";
    assert_eq!(asked(20, 3, 210), format!("{source}; {neither}"));
    assert_eq!(asked(20, 3, 216), format!("{source}; 33, but not if rounded up"));
    assert_eq!(asked(20, 3, 222), source);
    assert_eq!(asked(20, 3, 300), format!("{between}; {beside}"));
    let tail = "given back up to the end, a part behind the blocks";
    let last = "the last of more given back";
    assert!(asked(60, 4, 650).contains(tail) && !asked(60, 4, 500).contains(tail) && !asked(59, 4, 650).contains(tail));
    assert!(asked(60, 4, 650).contains(last) && asked(60, 4, 650).contains("given back up to the end; "));
}

#[test]
fn accepted() {
    let asked = |word: u64, first: u32, n: u32| given(fresh(6_400).table, word, first, n);
    assert_eq!(asked(0b111_0000, 4, 3), "all neighbours given back");
    assert_eq!(
        (asked(0b1111_0000, 4, 3), asked(0b111_1000, 4, 3)),
        ("the first of more given back".into(), "the last of more given back".into())
    );
    assert_eq!(
        (asked(ALL, 4, 3), asked(0b1_0111_0100, 4, 3)),
        ("given back from between taken ones".into(), "all neighbours given back".into())
    );
    assert_eq!(asked(ALL, 4, 1), "given back from between taken ones; 1 block given back");
    assert_eq!(asked(ALL, 0, 64), "all neighbours given back; 64 blocks given back");
    assert_eq!(asked(ALL, 60, 4), "the last of more given back; given back up to the end");
    let of_length = |length: u64| given(fresh(length).table, 0b11, 0, 2);
    assert_eq!(
        (of_length(64), of_length(65)),
        ("all neighbours given back; given back of 64 bytes".into(), "all neighbours given back".into())
    );
    assert_eq!(of_length(2_147_483_647), "all neighbours given back; given back of the longest memory");
    let mut table = fresh(6_400).table;
    table.slot[2] = slot(DONE, part(396, 4), part(700, 4));
    assert_eq!(given(table, 0b111_0000, 4, 3), "given back, touched from before; given back, touched from behind; all neighbours given back; given back beside a done slot");
}
