//! Move records, and what `rmvshow` prints for them.

use super::{count_up, default, four, plane};
use crate::moves::Config;
use crate::record::{pack, read, write, Reading};
use crate::show::show;
use crate::tensor::{Fault, Tensor};

/// Example A as a record: mark, version, rank, element size, then the groups.
pub fn record_a() -> Vec<u8> {
    let mut bytes = vec![b'R', b'M', b'V', 1, 0, 2, 1];
    for group in [[2u32, 3], [0, 0], [0, 0], [0, 0], [1, 1], [0, 0], [0, 0]] {
        for entry in four(&group) {
            bytes.extend(entry.to_le_bytes());
        }
    }
    bytes.extend([1, 0, 0, 0]);
    bytes.extend([0; 8]);
    bytes
}

fn a() -> (Tensor, Config) {
    let tensor = plane(&[2, 3]);
    (tensor, default(&tensor).with_perm([1, 0, 0, 0]))
}

fn status(bytes: &[u8]) -> (u8, u8) {
    let reading = read(bytes);
    if reading.status != 0 {
        let refusal = Reading { status: reading.status, dimension: reading.dimension, ..Reading::default() };
        assert_eq!(reading, refusal);
    }
    (reading.status, reading.dimension)
}

#[test]
fn a_record_reads_and_writes_the_same_bytes() {
    let (tensor, config) = a();
    assert_eq!(record_a().len(), 131);
    assert_eq!(read(&record_a()), Reading { status: 0, dimension: 0, tensor, config });
    let mut room = [9; 131];
    assert_eq!(write(&tensor, &config, &mut room), Fault::default());
    assert_eq!(room.to_vec(), record_a());
    for length in [0, 130, 132, 135] {
        let mut other = vec![9; length];
        assert_eq!(write(&tensor, &config, &mut other).status, 25);
        assert_eq!(other, vec![9; length]);
    }
}

/// A record in which every byte behind the version, but for the rank, is its own place in the record.
#[rustfmt::skip]
const PLACES: [u8; 131] = [
    b'R', b'M', b'V', 1, 0, 4, 6,
    7, 8, 9, 10, 11, 12, 13, 14, 15, 16, 17, 18, 19, 20, 21, 22,
    23, 24, 25, 26, 27, 28, 29, 30, 31, 32, 33, 34, 35, 36, 37, 38,
    39, 40, 41, 42, 43, 44, 45, 46, 47, 48, 49, 50, 51, 52, 53, 54,
    55, 56, 57, 58, 59, 60, 61, 62, 63, 64, 65, 66, 67, 68, 69, 70,
    71, 72, 73, 74, 75, 76, 77, 78, 79, 80, 81, 82, 83, 84, 85, 86,
    87, 88, 89, 90, 91, 92, 93, 94, 95, 96, 97, 98, 99, 100, 101, 102,
    103, 104, 105, 106, 107, 108, 109, 110, 111, 112, 113, 114, 115, 116, 117, 118,
    119, 120, 121, 122,
    123, 124, 125, 126,
    127, 128, 129, 130,
];

#[test]
fn every_entry_of_a_record_has_its_own_place() {
    let Reading { status, dimension, tensor, config } = read(&PLACES);
    assert_eq!((status, dimension), (0, 0));
    assert_eq!((tensor.rank, tensor.element_size), (4, 6));
    // Four 32-bit numbers a group, the lowest byte first.
    assert_eq!(tensor.shape, [0x0a090807, 0x0e0d0c0b, 0x1211100f, 0x16151413]);
    assert_eq!(tensor.stride, [0x1a191817, 0x1e1d1c1b, 0x2221201f, 0x26252423]);
    assert_eq!(config.offset, [0x2a292827, 0x2e2d2c2b, 0x3231302f, 0x36353433]);
    assert_eq!(config.size, [0x3a393837, 0x3e3d3c3b, 0x4241403f, 0x46454443]);
    assert_eq!(config.step, [0x4a494847, 0x4e4d4c4b, 0x5251504f, 0x56555453]);
    assert_eq!(config.dst_offset, [0x5a595857, 0x5e5d5c5b, 0x6261605f, 0x66656463]);
    assert_eq!(config.dst_stride, [0x6a696867, 0x6e6d6c6b, 0x7271706f, 0x76757473]);
    assert_eq!(config.perm, [119, 120, 121, 122]);
    assert_eq!(config.pre, [123, 124, 125, 126]);
    assert_eq!(config.post, [127, 128, 129, 130]);
    let mut room = [0; 131];
    assert_eq!(write(&tensor, &config, &mut room), Fault::default());
    assert_eq!(room, PLACES);
}

#[test]
fn damaged_records_are_refused_in_order() {
    assert_eq!(status(&record_a()[..130]), (25, 0));
    assert_eq!(status(&[]), (25, 0));
    let with = |changes: &[(usize, u8)]| {
        let mut bytes = record_a();
        for &(place, value) in changes {
            bytes[place] = value;
        }
        status(&bytes)
    };
    assert_eq!(with(&[(0, b'r'), (3, 2), (5, 0)]), (26, 0));
    // Version 256 is 00 01.
    assert_eq!(with(&[(3, 0), (4, 1), (5, 0)]), (27, 0));
    assert_eq!(with(&[(4, 1)]), (27, 0));
    assert_eq!(with(&[(5, 0)]), (1, 0));
    assert_eq!(with(&[(5, 5)]), (1, 0));
    // The lowest dimension over all groups: dimension 3 of the shape, dimension 2 of post.
    assert_eq!(with(&[(7 + 12, 1), (127 + 2, 1)]), (28, 2));
    assert_eq!(with(&[(7 + 12, 1)]), (28, 3));
    assert_eq!(with(&[(5, 1)]), (28, 1));
    // The element size is not looked at in version 1.
    assert_eq!(with(&[(6, 77)]), (0, 0));
}

#[test]
fn rmvshow_prints_example_a() {
    let input = [record_a(), count_up(6)].concat();
    let expected = "status 0 dim 0\nshape 3 2 stride 2 1\nneed 6\n01 04 02 05 03 06\n";
    assert_eq!(show(&input), expected);
    // What is left of the source is no matter.
    assert_eq!(show(&[input, vec![9; 100]].concat()), expected);
}

#[test]
fn rmvshow_prints_one_line_for_a_refusal() {
    assert_eq!(show(&[]), "status 25 dim 0\n");
    assert_eq!(show(&record_a()[..130]), "status 25 dim 0\n");
    assert_eq!(show(&[record_a(), count_up(5)].concat()), "status 5 dim 0\n");
    // 28 comes before 2.
    let mut bytes = record_a();
    (bytes[6], bytes[7 + 8]) = (5, 1);
    assert_eq!(show(&bytes), "status 28 dim 2\n");
    bytes[7 + 8] = 0;
    assert_eq!(show(&bytes), "status 2 dim 0\n");
}

#[test]
fn rmvshow_reads_16384_bytes_and_has_room_for_32768() {
    let source = |elements: u32| plane(&[elements]);
    let input = |tensor: &Tensor, config: &Config| [pack(tensor, config), vec![1; 20_000]].concat();
    let accepted = show(&input(&source(16_384), &default(&source(16_384))));
    assert!(accepted.starts_with("status 0 dim 0\nshape 16384 stride 1\nneed 16384\n01 01 "));
    assert_eq!(show(&input(&source(16_385), &default(&source(16_385)))), "status 5 dim 0\n");
    let far = |stride: u32| default(&source(2)).with_dst_stride([stride, 0, 0, 0]);
    let farthest = show(&input(&source(2), &far(32_767)));
    assert!(farthest.starts_with("status 0 dim 0\nshape 2 stride 32767\nneed 32768\n01 00 00"));
    assert!(farthest.ends_with(" 00 00 01\n"));
    assert_eq!(show(&input(&source(2), &far(32_768))), "status 13 dim 0\n");
}
