//! Inputs of `rmvlist`: lists of records, spoiled or not.

use super::lists::{draw_list, draw_two_lists, spoil_list};
use crate::cases::list_shows::{met, numbers};
use crate::random::Random;
use crate::show_list::show_list;

/// The inputs to list, one process each.
pub fn list_inputs(count: usize, seed: u64) -> Vec<Vec<u8>> {
    // Other numbers than those that draw the calls.
    let mut random = Random::new(seed ^ 0x4c49_5354);
    let mut inputs = longest(&mut random);
    inputs.truncate(count);
    let wanted = numbers();
    for place in inputs.len()..count {
        inputs.push(draw_at(&mut random, &wanted, place));
    }
    inputs
}

/// Once a run: as many records as are taken, one more; as many bytes that are no list, and one more.
fn longest(random: &mut Random) -> Vec<Vec<u8>> {
    let (list, longer) = draw_two_lists(random, 1_000);
    let mut no_list = list.clone();
    no_list[random.index(3)] ^= 1;
    let mut byte_more = list.clone();
    byte_more.push(0);
    vec![list, longer, no_list, byte_more]
}

/// At every second place an input that gives the number whose turn it is.
fn draw_at(random: &mut Random, wanted: &[String], place: usize) -> Vec<u8> {
    let mut input = draw(random);
    if place % 2 == 0 {
        let wanted = &wanted[place / 2 % wanted.len()];
        // So many draws find any of them.
        for _ in 0..300 {
            if met(&input, &show_list(&input)).contains(wanted) {
                break;
            }
            input = draw(random);
        }
    }
    input
}

fn draw(random: &mut Random) -> Vec<u8> {
    let mut input = draw_list(random);
    if random.chance(10) {
        let number = random.pick(&[25, 26, 27, 30]);
        spoil_list(random, &mut input, number);
    }
    input
}
