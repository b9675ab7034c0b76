//! Move records: sound ones, and damaged ones.

use super::planes::{any_config, good, Drawn, Scale};
use super::spoil::{vary, Lent};
use super::values::{any_stride, any_tensor, any_u32, any_u8};
use super::work::Work;
use crate::moves::Config;
use crate::random::Random;
use crate::record::{at, length_for, pack_as, version_for, LENGTH, LENGTH_WITH_FILL, VERSION, VERSION_WITH_FILL};
use crate::tensor::Tensor;
use crate::wire::{Memory, Rest};

/// Sets the entries at or past the rank to 0, as a record wants it.
pub fn clear_tail(tensor: &mut Tensor, config: &mut Config) {
    for d in tensor.rank.min(4) as usize..4 {
        for group in [
            &mut tensor.shape,
            &mut config.offset,
            &mut config.size,
            &mut config.step,
            &mut config.dst_offset,
            &mut config.dst_stride,
        ] {
            group[d] = 0;
        }
        tensor.stride[d] = 0;
        for group in [&mut config.perm, &mut config.pre, &mut config.post] {
            group[d] = 0;
        }
    }
}

/// Sets the unused bytes of the fill to 0, as a record wants it.
pub fn clear_unused(tensor: &Tensor, config: &mut Config) {
    let unused = 4 - tensor.element_size.clamp(1, 4) as u32;
    config.fill &= u32::MAX >> (8 * unused);
}

/// Any fields, not only those of moves that are accepted.
pub fn draw_fields(random: &mut Random) -> (Tensor, Config) {
    let (mut tensor, mut config) = if random.chance(60) {
        let mut drawn: Drawn = good(random, Scale::Wide);
        vary(random, &mut drawn, Lent::NumbersOnly);
        (drawn.tensor, drawn.config)
    } else {
        (any_tensor(random), any_config(random))
    };
    if random.chance(75) {
        clear_tail(&mut tensor, &mut config);
    }
    if random.chance(30) {
        set_tail_entry(random, &mut tensor, &mut config);
    }
    if random.chance(30) {
        config.fill = 0;
    }
    if random.chance(80) {
        clear_unused(&tensor, &mut config);
    }
    (tensor, config)
}

/// Puts a number into one entry, mostly at or past the rank (28).
pub fn set_tail_entry(random: &mut Random, tensor: &mut Tensor, config: &mut Config) {
    let d = random.between(tensor.rank.min(3) as u64, 3) as usize;
    let value = any_u32(random).max(1);
    let byte = any_u8(random).max(1);
    match random.below(10) {
        0 => tensor.shape[d] = value,
        1 => tensor.stride[d] = if random.chance(50) { value as i32 } else { any_stride(random).min(-1) },
        2 => config.offset[d] = value,
        3 => config.size[d] = value,
        4 => config.step[d] = value,
        5 => config.dst_offset[d] = value,
        6 => config.dst_stride[d] = value,
        7 => config.perm[d] = byte,
        8 => config.pre[d] = byte,
        _ => config.post[d] = byte,
    }
}

/// The bytes of a record, damaged or not.
pub fn draw_record(random: &mut Random) -> Vec<u8> {
    let (tensor, config) = draw_fields(random);
    record_of(random, &tensor, &config)
}

/// The bytes of a record with these fields, damaged or not; now and then of the version that its fill does not want.
pub fn record_of(random: &mut Random, tensor: &Tensor, config: &Config) -> Vec<u8> {
    let version = if random.chance(90) { version_for(config) } else { random.pick(&[VERSION, VERSION_WITH_FILL]) };
    let mut bytes = pack_as(version, tensor, config);
    damage(random, &mut bytes);
    bytes
}

/// Lengths of records and rooms: those of both versions, and others around them and far off.
const LENGTHS: [usize; 14] = [0, 1, 3, 5, 130, 131, 131, 132, 133, 134, 135, 135, 136, 262];

/// Leaves half of the records as they are.
fn damage(random: &mut Random, bytes: &mut Vec<u8>) {
    for _ in 0..random.pick(&[0, 0, 0, 1, 2, 2]) {
        match random.below(10) {
            0..=1 => set(bytes, random.index(3), any_u8(random)),
            2..=3 => set_version(random, bytes),
            4..=5 => set(bytes, at::RANK, any_u8(random)),
            6 => set(bytes, at::ELEMENT_SIZE, any_u8(random)),
            7 => bytes.resize(random.pick(&LENGTHS), 0),
            _ => {
                let place = random.index(bytes.len());
                set(bytes, place, any_u8(random));
            }
        }
    }
}

/// Sets a byte, if it is there.
pub fn set(bytes: &mut [u8], place: usize, value: u8) {
    if place < bytes.len() {
        bytes[place] = value;
    }
}

fn set_version(random: &mut Random, bytes: &mut [u8]) {
    let [low, high] = random.pick(&[0u16, 1, 1, 2, 2, 3, 256, 257, 258, 512, 255, 65_535]).to_le_bytes();
    set(bytes, at::VERSION, low);
    set(bytes, at::VERSION + 1, high);
}

pub fn read(work: &mut Work) {
    let bytes = draw_record(&mut work.random);
    work.call(0x30, &Rest(bytes));
}

/// Writes into a room of 131 or 135 bytes or of another length, and reads the outcome back.
pub fn write(work: &mut Work) {
    let random = &mut work.random;
    let (tensor, config) = draw_fields(random);
    let length = if random.chance(80) { length_for(&config) } else { random.pick(&LENGTHS) };
    let mut room = random.bytes(length);
    work.call(0x31, &(tensor, config, Memory(room.clone())));
    crate::record::write(&tensor, &config, &mut room);
    if work.random.chance(30) {
        work.call(0x30, &Rest(room));
    }
}

/// How long a record is, by its first bytes and by its configuration.
pub fn lengths(work: &mut Work) {
    let random = &mut work.random;
    let mut bytes = draw_record(random);
    if random.chance(40) {
        bytes.truncate(random.pick(&[0, 3, 4, 4, 5, 5, 6, LENGTH, LENGTH_WITH_FILL]));
    } else if random.chance(30) {
        bytes.extend([7; 9]);
    }
    let config = any_config(random);
    work.call(0x39, &Rest(bytes));
    work.call(0x3a, &config);
}

/// Fields by themselves, for a version that there is or for another one.
pub fn fields(work: &mut Work) {
    let random = &mut work.random;
    let (tensor, config) = draw_fields(random);
    let version = random.pick(&[1, 1, 1, 2, 2, 2, 2, 2, 0, 3, 257, 258, 512, 65_535u16]);
    work.call(0x3b, &(version, tensor, config));
}
