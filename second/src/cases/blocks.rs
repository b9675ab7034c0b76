//! The cases of the room keeper, which its numbers alone do not tell apart. A long comparison has to meet each.

use super::case::{case, met_by_status, named, Case};
use super::input::STATES;
use super::number::{FREE_BEFORE, GIVE_BACK, PART_OF, REQUEST};
use crate::job::{meets, Part};
use crate::keeper::{
    bad_number, block_bytes, bytes_of_run, free_before_first_taken, free_blocks, is_taken, past_the_end, request,
    BLOCKS,
};
use crate::moves::room;
use crate::tensor::LIMIT;
use crate::transfers::{sound, Table, FREE};
use crate::wire::begin;

/// All cases of the call of this number.
pub fn cases(number: u8) -> Vec<String> {
    named(&all(number, &[], 0))
}

/// The cases that a call with these bytes is, by what it has to be answered.
pub fn met(bytes: &[u8], expected: &[u8]) -> Vec<String> {
    met_by_status(all, bytes, expected)
}

/// Each case of the call of this number, and whether it is one with these arguments and this status. The names are the
/// same for any.
fn all(number: u8, arguments: &[u8], status: u8) -> Vec<Case> {
    match number {
        REQUEST => of_request(begin(arguments), status),
        GIVE_BACK => of_give_back(begin(arguments), status),
        FREE_BEFORE => of_free_before(begin(arguments)),
        PART_OF => of_part(begin(arguments), status),
        _ => Vec::new(),
    }
}

/// The free neighbours of a word: where each run of them begins, and how many they are.
fn gaps(word: u64) -> Vec<(u32, u32)> {
    let mut gaps: Vec<(u32, u32)> = Vec::new();
    for block in (0..BLOCKS).filter(|&block| !is_taken(word, block)) {
        match gaps.last_mut() {
            Some((first, length)) if *first + *length == block => *length += 1,
            _ => gaps.push((block, 1)),
        }
    }
    gaps
}

/// "gets the lowest run of n free neighbours, and is refused exactly if there is no such run; any other n is refused
/// too." Of more than 64 there never is a run, so that 31 is given there where 32 applies too.
fn of_request((word, n): (u64, u32), status: u8) -> Vec<Case> {
    let refused = |number: u8, by: bool| status == number && by;
    let longest = gaps(word).iter().map(|&(_, length)| length).max().unwrap_or(0);
    let ends: u32 =
        gaps(word).iter().filter(|(first, length)| *first == 0 || first + length == BLOCKS).map(|gap| gap.1).sum();
    let mut all = of_number(n, status);
    all.extend(of_grant(word, n, status));
    all.extend([
        case(refused(31, n == 0 && word == u64::MAX), "31 of no block, all taken"),
        case(refused(32, word == u64::MAX), "32 with all taken"),
        case(refused(32, free_blocks(word) >= n), "32 with enough free, not neighbours"),
        case(refused(32, ends >= n), "32 but for a run round the end"),
        case(refused(32, longest + 1 == n), "32 by one block"),
        case(refused(32, n == BLOCKS), "32 of 64 blocks"),
    ]);
    all
}

/// Where the run that is granted lies among those that are free.
fn of_grant(word: u64, n: u32, status: u8) -> Vec<Case> {
    let first = request(word, n).first;
    let granted = |by: bool| status == 0 && by;
    let gaps = gaps(word);
    let own = gaps.iter().rfind(|gap| gap.0 <= first).map_or(0, |gap| gap.1);
    let higher: Vec<u32> = gaps.iter().filter(|gap| gap.0 > first).map(|gap| gap.1).filter(|&gap| gap >= n).collect();
    vec![
        case(granted(n == 1), "1 block"),
        case(granted(n == BLOCKS), "64 blocks"),
        case(granted(first == 0), "from block 0"),
        case(granted(first > 0 && first + n == BLOCKS), "up to the end"),
        case(granted(own == n), "just as long as its gap"),
        case(granted(own > n), "shorter than its gap"),
        case(granted(gaps.iter().any(|gap| gap.0 < first)), "behind a gap too short"),
        case(granted(higher.is_empty() && own == n), "the only run"),
        case(granted(!higher.is_empty()), "the lowest of several"),
        case(granted(higher.iter().any(|&gap| gap < own)), "lower than a tighter gap"),
        case(granted(higher.iter().any(|&gap| gap > own)), "lower than a wider gap"),
    ]
}

/// 31: "n outside 1 to 64"
fn of_number(n: u32, status: u8) -> Vec<Case> {
    let refused = |by: bool| status == 31 && by;
    vec![
        case(refused(n == 0), "31 of no block"),
        case(refused(n == 65), "31 of 65 blocks"),
        case(refused(n == u32::MAX), "31 of 2^32 - 1 blocks"),
        case(refused(n > 255 && !bad_number(n % 256)), "31 of a number that would do in 8 bits"),
    ]
}

/// 31: "or a run past the end", "first + n is meant without wrapping".
fn of_run(first: u32, n: u32, status: u8) -> Vec<Case> {
    let past = status == 31 && past_the_end(first, n);
    let by_end = past && !bad_number(n);
    let wraps = first.wrapping_add(n) <= BLOCKS;
    let mut all = of_number(n, status);
    all.extend([
        case(by_end && first as u64 + n as u64 == 65, "31 by a block past the end"),
        case(by_end && first == BLOCKS, "31 from block 64"),
        case(by_end && !past_the_end(first % 256, n), "31 from a block that would do in 8 bits"),
        case(by_end && wraps, "31 from a block with which the sum would wrap"),
        case(past && bad_number(n) && wraps, "31 of a number with which the sum would wrap"),
    ]);
    all
}

/// A run that is to be given back.
type Given = (Table, u64, u32, u32);

fn of_give_back(given: Given, status: u8) -> Vec<Case> {
    let mut all = of_run(given.2, given.3, status);
    all.extend(of_order(&given, status));
    all.extend(of_blocks(&given, status));
    all.extend(of_slots(&given, status));
    all.extend(of_bounds(&given, status));
    all.extend(of_accepted(&given, status));
    all
}

/// The bytes of a run that has passed 31, and none of another.
fn run_bytes(&(table, _, first, n): &Given, status: u8) -> Part {
    match status {
        0 | 33 => bytes_of_run(table.length, first, n),
        _ => Part::default(),
    }
}

/// The blocks of a run that are not taken, of those that there are.
fn not_taken(&(_, word, first, n): &Given) -> Vec<u32> {
    let blocks = first.min(BLOCKS)..first.saturating_add(n).min(BLOCKS);
    blocks.filter(|&block| !is_taken(word, block)).collect()
}

/// "giving back has 17 for a table of length under 64 and 18 first; then 31 ..., 33 ..., in that order"
fn of_order(given: &Given, status: u8) -> Vec<Case> {
    let &(table, _, first, n) = given;
    let (unsound, bad_run) = (!sound(&table), bad_number(n) || past_the_end(first, n));
    let held = !not_taken(given).is_empty();
    vec![
        case(status == 17 && unsound, "17 and 18"),
        case(status == 17 && bad_run, "17 and 31"),
        case(status == 17 && !bad_run && held, "17 and 33"),
        case(status == 18 && bad_run, "18 and 31"),
        case(status == 18 && !bad_run && held, "18 and 33"),
        case(status == 31 && held, "31 and 33"),
        case(status == 17 && table.length == 63, "17 of 63 bytes"),
        case(status == 18 && table.length > LIMIT, "18 by the length"),
    ]
}

/// "A run with a block not taken can't be given back": just this one is not taken, and nothing else holds it up.
fn of_blocks(given: &Given, status: u8) -> Vec<Case> {
    let &(table, _, first, n) = given;
    let missing = not_taken(given);
    let by_block = status == 33 && met_parts(&table, &run_bytes(given, status)).is_empty();
    let alone = if by_block && missing.len() == 1 && n > 1 { Some(missing[0]) } else { None };
    vec![
        case(alone.is_some_and(|block| block == first), "33 by the first block"),
        case(alone.is_some_and(|block| block > first && block - first < n - 1), "33 by a block between"),
        case(alone.is_some_and(|block| block - first == n - 1), "33 by the last block"),
        case(by_block && n == 1, "33 by the only block"),
        case(by_block && n > 1 && missing.len() == n as usize, "33 by all blocks"),
    ]
}

/// A part of a slot that is not free.
#[derive(Clone, Copy)]
struct Used {
    slot: usize,
    state: u8,
    is_source: bool,
    part: Part,
    /// How much of it the elements of the move reach: the span, or the need.
    reached: u64,
}

fn used_parts(table: &Table) -> Vec<Used> {
    let mut used = Vec::new();
    for (k, slot) in table.slot.iter().enumerate().filter(|(_, slot)| slot.state != FREE) {
        let room = room(&slot.job.tensor, &slot.job.config);
        let parts = [(true, slot.job.source, room.span), (false, slot.job.destination, room.answer.need)];
        for (is_source, part, reached) in parts {
            used.push(Used { slot: k, state: slot.state, is_source, part, reached });
        }
    }
    used
}

fn met_parts(table: &Table, run: &Part) -> Vec<Used> {
    used_parts(table).into_iter().filter(|used| meets(&used.part, run)).collect()
}

/// "nor one with bytes of a slot that is not free": all blocks are taken, and just one part has such bytes.
fn of_slots(given: &Given, status: u8) -> Vec<Case> {
    let run = run_bytes(given, status);
    let met = met_parts(&given.0, &run);
    let alone = if status == 33 && not_taken(given).is_empty() && met.len() == 1 { Some(met[0]) } else { None };
    let by = |why: &dyn Fn(Used) -> bool| alone.is_some_and(why);
    let mut all = Vec::new();
    for (state, name) in STATES {
        let by_source = |is_source: bool| by(&|used| used.state == state && used.is_source == is_source);
        all.push((by_source(true), format!("33 by the source of a {name} slot")));
        all.push((by_source(false), format!("33 by the destination of a {name} slot")));
    }
    all.extend((0..4).map(|slot| (by(&|used| used.slot == slot), format!("33 by slot {slot}"))));
    let (start, end) = (run.start, run.start + run.length);
    let one_of_more = |byte: bool| byte && run.length > 1;
    all.extend([
        case(by(&|used| one_of_more(used.part.start + used.part.length == start + 1)), "33 by the first byte"),
        case(by(&|used| one_of_more(used.part.start + 1 == end)), "33 by the last byte"),
        case(by(&|used| used.part.start < start && used.part.start + used.part.length > end), "33 by a part around"),
        case(by(&|used| !meets(&Part { length: used.reached, ..used.part }, &run)), "33 by bytes that no element has"),
    ]);
    all
}

/// "each a 64th of its length rounded down": what other bounds of the blocks would refuse or let through.
fn of_bounds(given: &Given, status: u8) -> Vec<Case> {
    let &(table, _, first, n) = given;
    let passed = [0, 33].contains(&status);
    let meets_any = |bound: fn(u64, u64) -> u64| {
        let [start, end] = [first as u64, first as u64 + n as u64].map(|block| bound(table.length, block));
        !met_parts(&table, &Part { start, length: end - start }).is_empty()
    };
    let up = passed && meets_any(|length, block| length.div_ceil(64) * block);
    let each = passed && meets_any(|length, block| length * block / 64);
    let by_parts = status == 33 && not_taken(given).is_empty();
    let behind_all = BLOCKS as u64 * block_bytes(table.length);
    let in_tail = used_parts(&table).iter().any(|used| used.part.start >= behind_all);
    vec![
        case(status == 0 && up, "given back, but not if rounded up"),
        case(by_parts && !up, "33, but not if rounded up"),
        case(status == 0 && each, "given back, but not if each bound were rounded"),
        case(by_parts && !each, "33, but not if each bound were rounded"),
        case(status == 0 && first + n == BLOCKS && in_tail, "given back up to the end, a part behind the blocks"),
    ]
}

fn of_accepted(given: &Given, status: u8) -> Vec<Case> {
    let &(table, word, first, n) = given;
    let accepted = status == 0;
    let run = run_bytes(given, status);
    let used = used_parts(&table);
    let touches = |at: fn(&Part, &Part) -> bool| accepted && used.iter().any(|used| at(&used.part, &run));
    // Whether the blocks beside the run are taken.
    let before = accepted && first > 0 && is_taken(word, first - 1);
    let behind = accepted && first + n < BLOCKS && is_taken(word, first + n);
    let mut all = vec![
        case(touches(|part, run| part.start + part.length == run.start), "given back, touched from before"),
        case(touches(|part, run| part.start == run.start + run.length), "given back, touched from behind"),
        case(before && behind, "given back from between taken ones"),
        case(!before && behind, "the first of more given back"),
        case(before && !behind, "the last of more given back"),
        case(accepted && !before && !behind, "all neighbours given back"),
        case(accepted && n == 1, "1 block given back"),
        case(accepted && n == BLOCKS, "64 blocks given back"),
        case(accepted && first > 0 && first + n == BLOCKS, "given back up to the end"),
        case(accepted && table.length == 64, "given back of 64 bytes"),
        case(accepted && table.length == LIMIT, "given back of the longest memory"),
    ];
    for (state, name) in STATES {
        let beside = used.iter().any(|used| used.state == state);
        all.push((accepted && beside, format!("given back beside a {name} slot")));
    }
    all
}

/// "how many lie free before the first taken one", which are not all that are free
fn of_free_before(word: u64) -> Vec<Case> {
    let (before, free) = (free_before_first_taken(word), free_blocks(word));
    vec![case(before < free, "more free behind"), case(before == free && before < BLOCKS, "no more free behind")]
}

fn of_part((length, first, n): (u64, u32, u32), status: u8) -> Vec<Case> {
    let accepted = status == 0;
    let too_long = status == 17 && length > LIMIT;
    let bad_run = bad_number(n) || past_the_end(first, n);
    let broken = first as u64 * (length % 64);
    let mut all = of_run(first, n, status);
    all.extend([
        case(status == 17 && length == 63, "17 of 63 bytes"),
        case(too_long && length == LIMIT + 1, "17 of 2147483648 bytes"),
        case(too_long && (64..=LIMIT).contains(&(length % (1 << 32))), "17 of a length that would do in 32 bits"),
        case(status == 17 && bad_run, "17 and 31"),
        case(accepted && length == 64, "of 64 bytes"),
        case(accepted && length == LIMIT && first + n == BLOCKS, "of the longest memory, up to the end"),
        case(accepted && length % 64 == 63, "of a length with 63 bytes behind the blocks"),
        case(accepted && broken >= 64, "of a start that each bound rounded would move"),
        case(accepted && n == BLOCKS, "64 blocks"),
    ]);
    all
}
