//! The room keeper: what is granted, given back and counted, and the order of its refusals.

use super::{default, plane};
use crate::job::{Job, Part};
use crate::keeper::{free_before_first_taken, free_blocks, give_back, part_of, request, GivenBack, Granted, RunPart};
use crate::transfers::{fresh, prepare, release, start, step, Slot, Table, DONE, PREPARED, RUNNING};

const ALL: u64 = u64::MAX;

fn granted(first: u32, word: u64) -> Granted {
    Granted { status: 0, first, word }
}

fn part(start: u64, length: u64) -> Part {
    Part { start, length }
}

/// A copy of four bytes.
fn job(from: u64, to: u64) -> Job {
    let tensor = plane(&[4]);
    Job { source: part(from, 4), destination: part(to, 4), tensor, config: default(&tensor) }
}

/// A table with one transfer, in the last slot.
fn table(length: u64, state: u8, job: Job) -> Table {
    let moved = [0, 0, 2, 4][state as usize];
    let mut table = fresh(length).table;
    table.slot[3] = Slot { state, job, moved };
    table
}

#[test]
fn a_request_gets_the_lowest_run() {
    assert_eq!(request(0, 1), granted(0, 0b1));
    assert_eq!(request(0b1, 1), granted(1, 0b11));
    assert_eq!(request(0, 3), granted(0, 0b111));
    // Free are block 0, blocks 2 and 3, and 6 and above.
    assert_eq!(request(0b110010, 1), granted(0, 0b110011));
    assert_eq!(request(0b110010, 2), granted(2, 0b111110));
    assert_eq!(request(0b110010, 3), granted(6, 0b1_1111_0010));
    // The tighter gap above is left alone.
    assert_eq!(request(0b100_1000, 2), granted(0, 0b100_1011));
}

#[test]
fn all_64_blocks_are_one_run() {
    assert_eq!(request(0, 64), granted(0, ALL));
    assert_eq!(request(1, 64), Granted { status: 32, first: 0, word: 1 });
    assert_eq!(request(1 << 63, 64).status, 32);
    assert_eq!(request(1, 63), granted(1, ALL));
    assert_eq!(request(1 << 63, 63), granted(0, ALL));
    assert_eq!(request(2, 63).status, 32);
}

#[test]
fn the_last_blocks_are_granted_too() {
    assert_eq!(request(0x7fff_ffff_ffff_ffff, 1), granted(63, ALL));
    assert_eq!(request(0x0fff_ffff_ffff_ffff, 4), granted(60, ALL));
    assert_eq!(request(0x0fff_ffff_ffff_ffff, 5).status, 32);
}

#[test]
fn no_run_goes_round_the_end() {
    // Two blocks are free at either end.
    let word = 0x3fff_ffff_ffff_fffc;
    assert_eq!(request(word, 2), granted(0, 0x3fff_ffff_ffff_ffff));
    assert_eq!(request(word, 3), Granted { status: 32, first: 0, word });
    assert_eq!(request(word, 4).status, 32);
}

#[test]
fn free_blocks_have_to_be_neighbours() {
    // Every second block is free: 32 of them.
    let word = 0x5555_5555_5555_5555;
    assert_eq!(free_blocks(word), 32);
    assert_eq!(request(word, 1), granted(1, 0x5555_5555_5555_5557));
    assert_eq!(request(word, 2), Granted { status: 32, first: 0, word });
    assert_eq!(request(ALL, 1), Granted { status: 32, first: 0, word: ALL });
}

#[test]
fn any_other_number_is_refused() {
    for n in [0, 65, 66, 128, 256, 257, 320, 1 << 31, u32::MAX] {
        for word in [0, 5, ALL] {
            assert_eq!(request(word, n), Granted { status: 31, first: 0, word });
        }
    }
}

#[test]
fn counts_of_free_blocks() {
    assert_eq!((free_blocks(0), free_before_first_taken(0)), (64, 64));
    assert_eq!((free_blocks(ALL), free_before_first_taken(ALL)), (0, 0));
    assert_eq!((free_blocks(1), free_before_first_taken(1)), (63, 0));
    assert_eq!((free_blocks(1 << 63), free_before_first_taken(1 << 63)), (63, 63));
    assert_eq!((free_blocks(0b1010_0000), free_before_first_taken(0b1010_0000)), (62, 5));
    assert_eq!((free_blocks(0xffff_ffff_0000_0000), free_before_first_taken(0xffff_ffff_0000_0000)), (32, 32));
}

#[test]
fn parts_of_runs() {
    let of = |length: u64, first: u32, n: u32| part_of(length, first, n);
    let accepted = |start: u64, length: u64| RunPart { status: 0, part: part(start, length) };
    assert_eq!(of(64, 0, 64), accepted(0, 64));
    assert_eq!(of(6_400, 3, 2), accepted(300, 200));
    // 127 / 64 is 1, so 63 bytes belong to no block; 1,000 / 64 is 15, rounded down.
    assert_eq!((of(127, 0, 64), of(127, 63, 1)), (accepted(0, 64), accepted(63, 1)));
    assert_eq!((of(1_000, 10, 4), of(1_000, 60, 4)), (accepted(150, 60), accepted(900, 60)));
    // 2,147,483,647 / 64 is 33,554,431.
    assert_eq!(of(2_147_483_647, 0, 64), accepted(0, 2_147_483_584));
    assert_eq!(of(2_147_483_647, 63, 1), accepted(2_113_929_153, 33_554_431));
}

#[test]
fn parts_that_are_refused() {
    let refused = |status: u8| RunPart { status, part: part(0, 0) };
    for length in [0, 63, 2_147_483_648, (1 << 32) + 64, u64::MAX] {
        assert_eq!(part_of(length, 0, 1), refused(17));
        assert_eq!(part_of(length, 64, 0), refused(17));
    }
    for (first, n) in [(0, 0), (64, 0), (0, 65), (1, 64), (64, 1), (63, 2)] {
        assert_eq!(part_of(64, first, n), refused(31));
    }
    // In 32 bits the sums would be 0, 6 and 0.
    for (first, n) in [(u32::MAX, 1), (u32::MAX - 3, 10), (1, u32::MAX)] {
        assert_eq!(part_of(64, first, n), refused(31));
        assert_eq!(give_back(&fresh(64).table, ALL, first, n), GivenBack { status: 31, word: ALL });
    }
}

#[test]
fn given_back_blocks_are_free_again() {
    let table = fresh(640).table;
    let back = |word: u64, first: u32, n: u32| give_back(&table, word, first, n);
    let free = |word: u64| GivenBack { status: 0, word };
    assert_eq!(back(0b111, 0, 3), free(0));
    // A part of what was granted, at either end and from between; and two grants at once.
    assert_eq!((back(0b1111, 0, 1), back(0b1111, 3, 1)), (free(0b1110), free(0b0111)));
    assert_eq!((back(0b1111, 1, 2), back(ALL, 0, 64)), (free(0b1001), free(0)));
    assert_eq!(back(ALL, 60, 4), free(0x0fff_ffff_ffff_ffff));
    assert_eq!(request(back(ALL, 7, 5).word, 5), granted(7, ALL));
}

#[test]
fn blocks_that_are_not_taken_can_not_be_given_back() {
    let table = fresh(640).table;
    let back = |word: u64| give_back(&table, word, 4, 3);
    assert_eq!(back(0b111_0000), GivenBack { status: 0, word: 0 });
    for word in [0, 0b110_0000, 0b101_0000, 0b011_0000, !0b001_0000, 0b1000_1111] {
        assert_eq!(back(word), GivenBack { status: 33, word });
    }
}

#[test]
fn bytes_of_a_slot_hold_a_run_up() {
    // 640 bytes: block 10 has bytes 100 to 109, block 11 bytes 110 to 119.
    let status = |state: u8, from: u64, to: u64| give_back(&table(640, state, job(from, to)), ALL, 10, 2).status;
    for state in [PREPARED, RUNNING, DONE] {
        for within in [97, 100, 106, 108, 116, 119] {
            assert_eq!((status(state, within, 0), status(state, 0, within)), (33, 33));
        }
        for beside in [96, 120] {
            assert_eq!((status(state, beside, 0), status(state, 0, beside)), (0, 0));
        }
        assert_eq!(status(state, 100, 110), 33);
    }
    assert_eq!(give_back(&fresh(640).table, ALL, 10, 2).status, 0);
    // All of a part counts, also what no element has.
    let longer = Job { source: part(90, 11), ..job(0, 0) };
    assert_eq!(give_back(&table(640, DONE, longer), ALL, 10, 2), GivenBack { status: 33, word: ALL });
    assert_eq!(give_back(&table(640, DONE, longer), ALL, 11, 1).status, 0);
}

#[test]
fn blocks_are_rounded_down() {
    // 703 / 64 is 10, and 63 bytes belong to no block. Rounded up, block 10 would have bytes 110 to 120.
    let status = |first: u32, n: u32, from: u64| give_back(&table(703, RUNNING, job(from, 0)), ALL, first, n).status;
    assert_eq!((status(10, 1, 110), status(10, 1, 100)), (0, 33));
    assert_eq!((status(11, 1, 110), status(11, 1, 100)), (33, 0));
    assert_eq!((status(63, 1, 640), status(63, 1, 639), status(1, 63, 699)), (0, 33, 0));
    // A byte a block.
    let narrow = |first: u32| give_back(&table(127, DONE, job(20, 100)), ALL, first, 1).status;
    assert_eq!([19, 20, 23, 24, 50, 63].map(narrow), [0, 33, 33, 0, 0, 0]);
}

#[test]
fn the_order_of_a_give_back() {
    let sound = |length: u64| Table { length, ..Table::default() };
    let unsound = |length: u64| {
        let mut table = sound(length);
        table.slot[1].moved = 1;
        table
    };
    let status = |table: Table, word: u64, first: u32, n: u32| give_back(&table, word, first, n).status;
    for length in [0, 63] {
        assert_eq!((status(unsound(length), 0, 0, 0), status(sound(length), ALL, 0, 1)), (17, 17));
        assert_eq!((status(sound(length), 0, 0, 0), status(sound(length), 0, 0, 1)), (17, 17));
    }
    assert_eq!((status(unsound(64), ALL, 0, 65), status(unsound(64), 0, 0, 1)), (18, 18));
    assert_eq!((status(unsound(64), ALL, 0, 1), status(sound(2_147_483_648), ALL, 0, 1)), (18, 18));
    assert_eq!((status(sound(64), 0, 63, 2), status(sound(64), ALL, 63, 2)), (31, 31));
    assert_eq!((status(sound(64), ALL, 0, 0), status(sound(64), 0, 63, 1)), (31, 33));
    assert_eq!((status(sound(64), ALL, 63, 1), status(sound(2_147_483_647), ALL, 0, 64)), (0, 0));
    // A refusal hands the word back.
    assert_eq!(give_back(&unsound(64), 9, 0, 1), GivenBack { status: 18, word: 9 });
    assert_eq!(give_back(&sound(63), 9, 0, 1), GivenBack { status: 17, word: 9 });
}

/// Two runs of a memory of 640 bytes, a transfer from one into the other, and the run back when it is released.
#[test]
fn a_transfer_between_two_runs() {
    let one = request(0, 1);
    let two = request(one.word, 2);
    assert_eq!((one, two), (granted(0, 0b1), granted(1, 0b111)));
    let destination = part_of(640, two.first, 2).part;
    assert_eq!(destination, part(10, 20));
    let table = prepare(&fresh(640).table, &Job { destination, ..job(0, 0) }, 640).table;
    let running = start(&table, 0, 640).table;
    let done = step(&running, 0, 4, vec![7; 640]).table;
    for table in [table, running, done] {
        for (first, n) in [(0, 1), (1, 2), (2, 1), (0, 3)] {
            assert_eq!(give_back(&table, two.word, first, n), GivenBack { status: 33, word: two.word });
        }
    }
    let released = release(&done, 0, 640).table;
    let given_back = give_back(&released, two.word, two.first, 2);
    assert_eq!(given_back, GivenBack { status: 0, word: 0b1 });
    assert_eq!(request(given_back.word, 3), granted(1, 0b1111));
}
