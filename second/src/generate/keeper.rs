//! The calls of the room keeper that take no table: requests, parts of runs, and how many blocks are free.

use super::values::any_u64;
use super::words::{
    any_number, any_run, any_word, just_one_run, not_neighbours, round_the_end, several_runs, with_run, word_for,
};
use super::work::Work;
use crate::keeper::{free_blocks, BLOCKS};
use crate::random::Random;
use crate::tensor::LIMIT;

pub fn request(work: &mut Work) {
    let n = any_number(&mut work.random);
    let word = word_for(&mut work.random, n);
    work.call(0x50, &(word, n));
}

/// Both counts of one word.
pub fn counts(work: &mut Work) {
    let random = &mut work.random;
    let free_before = random.below(65) as u32;
    let word = match random.below(3) {
        0 => any_word(random),
        _ => any_word(random) & !with_run(0, free_before),
    };
    work.call(0x52, &word);
    work.call(0x53, &word);
}

pub fn part_of(work: &mut Work) {
    let random = &mut work.random;
    let length = match random.below(6) {
        0 => random.pick(&WRONG_LENGTHS),
        1 => any_u64(random),
        _ => good_length(random),
    };
    let (first, n) = any_run(random);
    work.call(0x54, &(length, first, n));
}

/// Lengths of memories that 17 refuses.
const WRONG_LENGTHS: [u64; 8] = [0, 1, 63, LIMIT + 1, 1 << 32, (1 << 32) + 64, (1 << 32) + 4_096, u64::MAX];

/// A length of 64 or more: at the limits, and with as many bytes behind the blocks as there can be, or none.
pub fn good_length(random: &mut Random) -> u64 {
    match random.below(8) {
        0..=1 => random.pick(&[64, 65, 127, 128, 129]),
        2 => random.pick(&[LIMIT, LIMIT, LIMIT - 1, LIMIT - 63, LIMIT - 64]),
        3 => random.pick(&[4_095, 4_096, 4_097, 65_535, 65_536]),
        4 => 64 * random.between(1, 60) + random.pick(&[0, 1, 63]),
        _ => random.between(64, 4_000),
    }
}

/// Runs that 31 refuses: of too few and too many blocks, past the end, and with sums that would wrap in 32 bits.
pub const WRONG_RUNS: [(u32, u32); 16] = [
    (0, 0),
    (64, 0),
    (0, 65),
    (0, u32::MAX),
    (1, u32::MAX),
    (20, u32::MAX - 9),
    (3, 257),
    (0, 320),
    (64, 1),
    (1, 64),
    (63, 2),
    (60, 5),
    (259, 4),
    (u32::MAX, 1),
    (u32::MAX, 64),
    (u32::MAX - 3, 10),
];

/// Each wrong number of blocks and each wrong run, with blocks free and with none; and wrong lengths besides.
pub fn every_wrong_run(work: &mut Work) {
    for (first, n) in WRONG_RUNS {
        for word in [0, u64::MAX] {
            if !(1..=BLOCKS).contains(&n) {
                work.call(0x50, &(word, n));
            }
        }
        let length = good_length(&mut work.random);
        work.call(0x54, &(length, first, n));
    }
    for length in [63, 64, 127, LIMIT, LIMIT + 1, (1 << 32) + 64] {
        for (first, n) in [(0u32, 64u32), (63, 1), (63, 2)] {
            work.call(0x54, &(length, first, n));
        }
    }
}

/// Some numbers of blocks, each in a word of each kind.
pub fn every_request(work: &mut Work) {
    let kinds: [fn(&mut Random, u32) -> u64; 4] = [just_one_run, round_the_end, not_neighbours, several_runs];
    for n in [1, 5, 63, 64] {
        for kind in kinds {
            let word = kind(&mut work.random, n);
            work.call(0x50, &(word, n));
        }
        for word in [0, u64::MAX, 1, 1 << 63] {
            work.call(0x50, &(word, n));
        }
    }
}

/// Each number of free blocks, and each number of those before the first taken one.
pub fn every_count(work: &mut Work) {
    for count in 0..=BLOCKS {
        let mut word = u64::MAX;
        while free_blocks(word) < count {
            word &= !(1 << work.random.below(64));
        }
        work.call(0x52, &word);
        let word = any_word(&mut work.random) & !with_run(0, count);
        // What lies behind is free only where all are.
        let taken = if count < BLOCKS { 1 << count } else { 0 };
        work.call(0x53, &(word | taken));
    }
}
