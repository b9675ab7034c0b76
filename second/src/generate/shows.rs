//! Inputs of `rmvshow`: a record and source bytes.

use super::planes::{good, Drawn, Scale};
use super::records::{clear_tail, clear_unused, record_of, set};
use super::spoil::{vary, Lent};
use super::values::{any_fill, any_u8};
use crate::cases::shows::{cases, met};
use crate::random::Random;
use crate::ready_made::copy;
use crate::record::{at, length_in, pack, LENGTH, LENGTH_WITH_FILL};
use crate::show::{number, ROOM, SOURCE_LIMIT};
use crate::tensor::{Tensor, ELEMENT_SIZES};

/// The inputs to show, one process each.
pub fn show_inputs(count: usize, seed: u64) -> Vec<Vec<u8>> {
    // Other numbers than those that draw the calls.
    let mut random = Random::new(seed ^ 0x5348_4f57);
    let wanted = cases();
    (0..count).map(|place| draw_at(&mut random, &wanted, place)).collect()
}

/// At every second place an input that is the case whose turn it is.
fn draw_at(random: &mut Random, wanted: &[String], place: usize) -> Vec<u8> {
    let mut input = draw(random);
    if place % 2 == 0 {
        let wanted = &wanted[place / 2 % wanted.len()];
        // So many draws find any of them.
        for _ in 0..5_000 {
            if met(&input, number(&input)).contains(wanted) {
                break;
            }
            input = draw(random);
        }
    }
    input
}

/// A move whose fields a record can have, mostly.
fn draw_move(random: &mut Random, at_limits: bool) -> Drawn {
    let mut drawn = match random.below(10) {
        _ if at_limits => draw_at_limits(random),
        0 => good(random, Scale::Large),
        _ => good(random, Scale::Small),
    };
    if !at_limits && random.chance(40) {
        vary(random, &mut drawn, Lent::Bytes);
    }
    if random.chance(85) {
        clear_tail(&mut drawn.tensor, &mut drawn.config);
    }
    if random.chance(30) {
        drawn.config.fill = 0;
    }
    if random.chance(90) {
        clear_unused(&drawn.tensor, &mut drawn.config);
    }
    drawn
}

/// A record and source bytes, damaged or not.
pub fn draw(random: &mut Random) -> Vec<u8> {
    let at_limits = random.chance(20);
    let drawn = draw_move(random, at_limits);
    let mut input = if !at_limits && random.chance(20) {
        record_of(random, &drawn.tensor, &drawn.config)
    } else {
        pack(&drawn.tensor, &drawn.config)
    };
    if random.chance(10) {
        cut(random, &mut input);
        return input;
    }
    // A record that is cut short has nothing behind it; the first bytes of a longer one are read alone.
    if input.len() < length_in(&input) {
        return input;
    }
    let more = random.pick(&[0, 0, 1, 100]);
    input.extend(random.bytes((drawn.source + more).min(70_000) as usize));
    input
}

/// Cuts a record short, mostly between the lengths of the two versions, with another mark or version now and then.
fn cut(random: &mut Random, input: &mut Vec<u8>) {
    if random.chance(25) {
        set(input, at::MARK + random.index(3), any_u8(random));
    }
    if random.chance(25) {
        set(input, at::VERSION + 1, any_u8(random));
    }
    let shorter = random.index(LENGTH);
    input.truncate(random.pick(&[LENGTH, 132, 133, 134, LENGTH_WITH_FILL, shorter]));
}

/// In whole elements, a source of just as many bytes as are read, or more; a destination that just fits, or doesn't.
fn draw_at_limits(random: &mut Random) -> Drawn {
    // Elements of one byte more often: of them alone a source can be just a byte longer.
    let element_size = if random.chance(40) { 1 } else { random.pick(&ELEMENT_SIZES) };
    let mut tensor = Tensor { rank: 1, element_size, ..Tensor::default() };
    let mut config = copy(1).config.with_fill(any_fill(random));
    let more = random.pick(&[0, 0, 1]);
    if random.chance(50) {
        tensor.shape[0] = SOURCE_LIMIT as u32 / tensor.element_size as u32 + more;
    } else {
        // The last element is as far as the room reaches, or farther.
        tensor.shape[0] = 2;
        config.dst_stride[0] = ROOM as u32 / tensor.element_size as u32 - 1 + more;
    }
    let mut drawn = Drawn::of(tensor, config);
    drawn.source += random.pick(&[0, 1, 4_000]);
    drawn
}
