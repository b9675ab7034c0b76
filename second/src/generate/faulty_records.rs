//! Once a run: records of both versions and lengths with each fault, alone and two at once, read, written and judged by
//! their fields.

use super::planes::{any_config, good, Scale};
use super::records::clear_tail;
use super::work::Work;
use crate::cases::input::BESIDE;
use crate::moves::Config;
use crate::random::Random;
use crate::record::{at, length_for, pack_as, LENGTH, LENGTH_WITH_FILL, VERSION, VERSION_WITH_FILL};
use crate::tensor::{Tensor, ELEMENT_SIZES};
use crate::wire::{Memory, Rest};

/// No fill, the used bytes of each element size, and each byte that an element size leaves unused, also by itself.
const FILLS: [u32; 10] =
    [0, 0x11, 0x2211, 0x2200, 0x0033_0000, 0x0033_0011, 0x0033_2211, 0x4400_0000, 0x4400_0011, 0x4433_2211];

/// Another fault of the fields.
#[derive(Clone, Copy)]
enum Besides {
    Nothing,
    Rank,
    Tail,
}

/// Fields that a record can have, with this element size and fill, and with another fault.
fn draw_fields(random: &mut Random, element_size: u8, fill: u32, besides: Besides) -> (Tensor, Config) {
    let mut drawn = good(random, Scale::Wide);
    drawn.tensor.rank = drawn.tensor.rank.min(3);
    clear_tail(&mut drawn.tensor, &mut drawn.config);
    (drawn.tensor.element_size, drawn.config.fill) = (element_size, fill);
    match besides {
        Besides::Nothing => {}
        Besides::Rank => drawn.tensor.rank = random.pick(&[0, 5, 255]),
        Besides::Tail => drawn.config.step[3] = 1,
    }
    (drawn.tensor, drawn.config)
}

/// Each fill with each element size and with those beside them, which 2 refuses; some of them with another fault.
pub fn every_fill(work: &mut Work) {
    for element_size in ELEMENT_SIZES.into_iter().chain(BESIDE) {
        for fill in FILLS {
            with_fill(work, element_size, fill, Besides::Nothing);
        }
        for fill in [0, 0x11, 0x4433_2211] {
            with_fill(work, element_size, fill, Besides::Rank);
            with_fill(work, element_size, fill, Besides::Tail);
        }
    }
    // What version 2 refuses, by the element size and by the fill, is nothing to any other version.
    for version in [0, VERSION, 3, 258, 512u16] {
        for (element_size, fill) in [(5, 0x11), (1, 0x2211)] {
            let (tensor, config) = draw_fields(&mut work.random, element_size, fill, Besides::Nothing);
            work.call(0x3b, &(version, tensor, config));
        }
    }
}

/// Fields read from a record of version 2, written, and judged as version 2.
fn with_fill(work: &mut Work, element_size: u8, fill: u32, besides: Besides) {
    let (tensor, config) = draw_fields(&mut work.random, element_size, fill, besides);
    let room = work.random.bytes(length_for(&config));
    work.call(0x30, &Rest(pack_as(VERSION_WITH_FILL, &tensor, &config)));
    work.call(0x31, &(tensor, config, Memory(room)));
    work.call(0x3b, &(VERSION_WITH_FILL, tensor, config));
}

/// Records and rooms of each length, and versions that are not that length's.
pub fn every_length(work: &mut Work) {
    for fill in [0, 0x11] {
        let (tensor, config) = draw_fields(&mut work.random, 1, fill, Besides::Nothing);
        for length in LENGTH - 1..=LENGTH_WITH_FILL + 1 {
            let room = work.random.bytes(length);
            work.call(0x31, &(tensor, config, Memory(room)));
            let mut bytes = pack_as(VERSION_WITH_FILL, &tensor, &config);
            bytes.resize(length, 7);
            let has_version = [LENGTH, LENGTH_WITH_FILL].contains(&length);
            let versions: &[u16] = if has_version { &[0, 1, 2, 3, 257, 258, 512] } else { &[1, 2] };
            for version in versions {
                bytes[at::VERSION..at::RANK].copy_from_slice(&version.to_le_bytes());
                work.call(0x30, &Rest(bytes.clone()));
            }
        }
    }
}

/// Two faults at once, the first of which is of the length, the mark or the version.
pub fn every_pair(work: &mut Work) {
    for (element_size, besides) in [(1, Besides::Rank), (5, Besides::Nothing), (1, Besides::Tail)] {
        let (tensor, config) = draw_fields(&mut work.random, element_size, 0x11, besides);
        let room = work.random.bytes(LENGTH);
        work.call(0x31, &(tensor, config, Memory(room)));
        let record = pack_as(VERSION_WITH_FILL, &tensor, &config);
        let with = |length: usize, changes: &[(usize, u8)]| {
            let mut bytes = record[..length].to_vec();
            for &(place, value) in changes {
                bytes[place] = value;
            }
            Rest(bytes)
        };
        let mark = (at::MARK + work.random.index(3), 0);
        work.call(0x30, &with(LENGTH_WITH_FILL - 1, &[mark]));
        work.call(0x30, &with(LENGTH_WITH_FILL, &[mark]));
        work.call(0x30, &with(LENGTH_WITH_FILL, &[mark, (at::VERSION, 1)]));
        work.call(0x30, &with(LENGTH_WITH_FILL, &[(at::VERSION, 1)]));
    }
}

/// How long a record is, by few bytes, by another mark, by a version that is 2 in one byte alone, and by each fill.
pub fn every_beginning(work: &mut Work) {
    for bytes in [&b""[..], b"RMV\x02", b"RMV\x02\0", b"RML\x02\0\x02", b"RMV\x02\x01\x02", b"RMV\0\x02\x02"] {
        work.call(0x39, &Rest(bytes.to_vec()));
    }
    let longer = [&b"RMV\x02\0"[..], &[2; 200]].concat();
    work.call(0x39, &Rest(longer));
    for fill in FILLS {
        let config = any_config(&mut work.random).with_fill(fill);
        work.call(0x3a, &config);
    }
}
