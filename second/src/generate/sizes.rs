//! Once a run: a plane with elements of each size, and of the sizes just beside them, in each call that counts bytes, and
//! rows of each kind.

use super::jobs::lay_out;
use super::moving::move_drawn;
use super::planes::Drawn;
use super::values::telling_fill;
use super::work::{Work, ADVANCE};
use crate::cases::input::BESIDE;
use crate::helpers::SubConfig;
use crate::job::Job;
use crate::random::Random;
use crate::ready_made::copy;
use crate::tensor::{Tensor, ELEMENT_SIZES};
use crate::transfers::{fresh, Slot, DONE, PREPARED, RUNNING};
use crate::wire::{Memory, Rest};

pub fn every_size(work: &mut Work) {
    for element_size in ELEMENT_SIZES.into_iter().chain(BESIDE) {
        let drawn = draw_copy(&mut work.random, element_size);
        work.call(0x04, &element_size);
        ask_all(work, &drawn);
        a_byte_less(work, &drawn);
        // "J: element size 3 with shape (0,70000)"
        let tensor = Tensor { shape: [0, 70_000, 0, 0], ..drawn.tensor };
        ask_all(work, &Drawn { tensor, ..drawn.clone() });
        in_table(work, &drawn);
    }
}

/// A plane of two dimensions with several elements in each, turned or not, with as many bytes lent as they have. So a
/// size that there is not is refused for nothing else; for 0 a byte each is lent.
fn draw_copy(random: &mut Random, element_size: u8) -> Drawn {
    let shape = [random.between(2, 4) as u32, random.between(2, 5) as u32, 0, 0];
    let tensor = Tensor { rank: 2, element_size, shape, stride: [0; 4] };
    let mut config = copy(2).config;
    if random.chance(50) {
        config.perm[..2].reverse();
    }
    let lent = shape[0] as u64 * shape[1] as u64 * element_size.max(1) as u64;
    Drawn { tensor, config, source: lent, destination: lent }
}

/// Moves with a byte less than enough on either side.
fn a_byte_less(work: &mut Work, drawn: &Drawn) {
    let less = drawn.source - 1;
    judge_and_move(work, &Drawn { source: less, ..drawn.clone() });
    judge_and_move(work, &Drawn { destination: less, ..drawn.clone() });
}

fn judge_and_move(work: &mut Work, drawn: &Drawn) {
    work.call(0x03, &(drawn.tensor, drawn.config, drawn.source, drawn.destination));
    move_drawn(work, drawn);
}

/// Each call that asks about a tensor record.
pub fn ask_all(work: &mut Work, drawn: &Drawn) {
    let Drawn { tensor, config, source, .. } = *drawn;
    work.call(0x01, &tensor);
    work.call(0x02, &(tensor, config));
    judge_and_move(work, drawn);
    let row = SubConfig { offset: [1, 0, 0, 0], size: [1, tensor.shape[1], 0, 0], rank: 1 };
    work.call(0x06, &(tensor, row, source));
    let bytes = Rest(work.random.bytes(source as usize));
    work.call(0x24, &(tensor, row, bytes.clone()));
    work.call(0x25, &(tensor, row, bytes));
    let (job, length) = lay_out(&mut work.random, drawn);
    let memory = work.random.bytes(length as usize);
    work.call(0x21, &(length, job));
    work.by_both(ADVANCE, &(job, 1u64, 2u64, Memory(memory.clone())));
    work.call(0x41, &(fresh(length).table, job, Rest(memory)));
}

/// Each call that takes a table, which has a slot with such a plane.
fn in_table(work: &mut Work, drawn: &Drawn) {
    let (job, length) = lay_out(&mut work.random, drawn);
    let memory = work.random.bytes(length as usize);
    let total = drawn.tensor.shape[..2].iter().map(|&shape| shape as u64).product();
    let table = |state: u8, moved: u64| {
        let mut table = fresh(length).table;
        table.slot[0] = Slot { state, job, moved };
        table
    };
    work.call(0x41, &(table(PREPARED, 0), Job::default(), Rest(memory.clone())));
    work.call(0x42, &(table(PREPARED, 0), 0u32, Rest(memory.clone())));
    work.call(0x43, &(table(RUNNING, 0), 0u32, 2u64, Memory(memory.clone())));
    work.call(0x44, &(table(DONE, total), 0u32, Rest(memory)));
    work.call(0x45, &(table(RUNNING, 0), 0u32));
}

/// Rows of elements of each size that lie side by side but for one thing: they are wider in the destination, thinned,
/// turned, padded, or read right to left. Each is moved as a whole, by itself and within a memory.
pub fn every_row(work: &mut Work) {
    let plain = copy(2).config;
    let rows = [
        plain.with_dst_stride([0, 2, 0, 0]),
        plain.with_step([1, 2, 0, 0]),
        plain.with_perm([1, 0, 0, 0]),
        plain.with_pre([0, 1, 0, 0]),
        plain.with_post([0, 1, 0, 0]),
        plain.with_pre([0, 1, 0, 0]).with_post([0, 2, 0, 0]),
    ];
    for element_size in ELEMENT_SIZES {
        let tensor = Tensor { rank: 2, element_size, shape: [2, 3, 0, 0], stride: [0; 4] };
        let right_to_left = Tensor { stride: [0, -1, 0, 0], ..tensor };
        for (tensor, config) in rows.map(|config| (tensor, config)).into_iter().chain([(right_to_left, plain)]) {
            let drawn = Drawn::of(tensor, config.with_fill(telling_fill(&mut work.random)));
            move_drawn(work, &drawn);
            let (job, length) = lay_out(&mut work.random, &drawn);
            let memory = work.random.bytes(length as usize);
            work.by_both(ADVANCE, &(job, 0u64, u64::MAX, Memory(memory)));
        }
    }
}
