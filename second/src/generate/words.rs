//! Words of the room keeper, and runs of blocks, at their limits and beside them.

use super::values::any_u32;
use crate::keeper::BLOCKS;
use crate::random::Random;

/// The word in which just this run is taken.
pub fn with_run(first: u32, n: u32) -> u64 {
    (((1u128 << n) - 1) << first) as u64
}

/// A word drawn for no run in particular.
pub fn any_word(random: &mut Random) -> u64 {
    let (a, b, c) = (random.any(), random.any(), random.any());
    let single = 1 << random.below(64);
    let (first, n) = good_run(random);
    match random.below(10) {
        0 => random.pick(&[0, u64::MAX]),
        1 => single,
        2 => !single,
        3 => a,
        4 => a & b & c,
        5 => a | b | c,
        // Half of the blocks one after another, or every second.
        6 => random.pick(&[0xffff_ffff, !0xffff_ffff, 0x5555_5555_5555_5555, 0xaaaa_aaaa_aaaa_aaaa]),
        7 => with_run(first, n),
        8 => !with_run(first, n),
        _ => a & b | with_run(first, n),
    }
}

/// A word in which n free neighbours are to be looked for.
pub fn word_for(random: &mut Random, n: u32) -> u64 {
    let n = n.clamp(1, BLOCKS);
    match random.below(8) {
        0..=1 => any_word(random),
        2 => just_one_run(random, n),
        3..=4 => round_the_end(random, n),
        5 => not_neighbours(random, n),
        _ => several_runs(random, n),
    }
}

/// All taken but one run of n, and perhaps single blocks apart from it.
pub fn just_one_run(random: &mut Random, n: u32) -> u64 {
    let first = any_first(random, n);
    let word = !with_run(first, n);
    if n == 1 || random.chance(40) {
        return word;
    }
    // The blocks next to the run stay taken.
    let around = with_run(first.saturating_sub(1), n + 2);
    word & (around | 0xaaaa_aaaa_aaaa_aaaa)
}

/// Fewer than n free at either end, and n or more at both together; a block between is taken.
pub fn round_the_end(random: &mut Random, n: u32) -> u64 {
    let n = n.clamp(2, BLOCKS - 1);
    let low = random.between(1, n as u64 - 1) as u32;
    let high = random.between((n - low) as u64, (n - 1).min(BLOCKS - 1 - low) as u64) as u32;
    !(with_run(0, low) | with_run(BLOCKS - high, high))
}

/// At most n - 1 free neighbours anywhere: every n-th block is taken.
pub fn not_neighbours(random: &mut Random, n: u32) -> u64 {
    let start = random.below(n as u64) as u32;
    (start..BLOCKS).step_by(n as usize).fold(0, |word, block| word | 1 << block)
}

/// Some runs that have just room enough, or a little more or less.
pub fn several_runs(random: &mut Random, n: u32) -> u64 {
    let mut word = u64::MAX;
    for _ in 0..random.between(2, 5) {
        let length = (n + random.below(4) as u32).saturating_sub(1).clamp(1, BLOCKS);
        word &= !with_run(any_first(random, length), length);
    }
    word
}

/// Where a run of n blocks begins, often at either end.
fn any_first(random: &mut Random, n: u32) -> u32 {
    let last = BLOCKS - n;
    let some = random.below(last as u64 + 1) as u32;
    random.pick(&[0, last, some, some, some])
}

/// Numbers of blocks that are refused.
const WRONG: [u32; 12] = [0, 0, 65, 65, 66, 128, 255, 256, 257, 320, u32::MAX - 1, u32::MAX];

/// How many blocks are asked for.
pub fn any_number(random: &mut Random) -> u32 {
    match random.below(20) {
        0..=2 => random.pick(&WRONG),
        3 => any_u32(random),
        _ => good_number(random),
    }
}

fn good_number(random: &mut Random) -> u32 {
    match random.below(10) {
        0..=1 => random.pick(&[1, 2, 32, 63, 64]),
        2..=3 => random.between(1, 64) as u32,
        _ => random.between(1, 8) as u32,
    }
}

/// Where a run begins, and how many blocks it has.
pub fn good_run(random: &mut Random) -> (u32, u32) {
    let n = good_number(random);
    (any_first(random, n), n)
}

/// Mostly a run that there is.
pub fn any_run(random: &mut Random) -> (u32, u32) {
    if random.chance(80) {
        good_run(random)
    } else {
        bad_run(random)
    }
}

/// A run that 31 refuses, but for a few.
pub fn bad_run(random: &mut Random) -> (u32, u32) {
    let (first, n) = good_run(random);
    match random.below(10) {
        0 => (first, 0),
        1..=2 => (first, random.pick(&WRONG)),
        3..=4 => (BLOCKS + 1 - n, n),
        5 => (random.pick(&[64, 65, 128, 255, 256, 1 << 31, u32::MAX]), n),
        // In 32 bits the sum is below n, or below first.
        6 => ((random.below(n as u64) as u32).wrapping_sub(n), n),
        7 => (first + 1, (random.below(first as u64 + 1) as u32).wrapping_sub(first + 1)),
        8 => (first + 256, n),
        _ => (any_u32(random), any_number(random)),
    }
}
