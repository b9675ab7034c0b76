//! Signed strides: planes that count down, worked out by hand from "its coordinate x lies (shape - 1 - x) x size of the
//! stride up from there"; the ends of the range; sub-tensors, records and transfers of such planes.

use super::records::record_a;
use super::{count_up, default, four, plane, refused};
use crate::helpers::{sub_part, sub_tensor, SubConfig, SubTensor};
use crate::job::{Job, Part};
use crate::list::{append, first_two, record_at};
use crate::moves::{self, judge, room, Config};
use crate::plain;
use crate::record::{fields_fault, read, write};
use crate::show::show;
use crate::show_list::show_list;
use crate::tensor::{source_of, Fault, Source, Tensor};
use crate::transfers::{fresh, poll, prepare, start, step, Poll, DONE};
use crate::wire::{bytes_of, whole};

const LEAST: i32 = -2_147_483_648;
const LARGEST: i32 = 2_147_483_647;

/// A plane of bytes with these strides.
fn strided(shape: &[u32], stride: &[i32]) -> Tensor {
    Tensor { stride: four(stride), ..plane(shape) }
}

/// What both engines move into just as many zeros as are needed.
fn moved(tensor: &Tensor, config: &Config, source: &[u8]) -> Vec<u8> {
    let need = room(tensor, config).answer.need as usize;
    let (mut one, mut other) = (vec![0; need], vec![0; need]);
    assert_eq!(moves::move_plane(tensor, config, source, &mut one).status, 0);
    assert_eq!(plain::move_plane(tensor, config, source, &mut other).status, 0);
    assert_eq!(one, other);
    one
}

fn copied(shape: &[u32], stride: &[i32]) -> Vec<u8> {
    let tensor = strided(shape, stride);
    moved(&tensor, &default(&tensor), &count_up(source_of(&tensor).span as u8))
}

#[test]
fn a_row_right_to_left() {
    assert_eq!(
        (copied(&[3], &[-1]), copied(&[3], &[0]), copied(&[3], &[1])),
        (vec![3, 2, 1], vec![1, 2, 3], vec![1, 2, 3])
    );
    // Every second byte, from the last on.
    assert_eq!(copied(&[3], &[-2]), [5, 3, 1]);
    let pixels = Tensor { element_size: 3, ..strided(&[2], &[-1]) };
    assert_eq!(moved(&pixels, &default(&pixels), &count_up(6)), [4, 5, 6, 1, 2, 3]);
    let samples = Tensor { element_size: 2, ..strided(&[3], &[-1]) };
    assert_eq!(moved(&samples, &default(&samples), &count_up(6)), [5, 6, 3, 4, 1, 2]);
}

#[test]
fn a_plane_mirrored_and_turned() {
    // 1 2 3 above 4 5 6.
    assert_eq!(copied(&[2, 3], &[0, -1]), [3, 2, 1, 6, 5, 4]);
    assert_eq!(copied(&[2, 3], &[3, -1]), [3, 2, 1, 6, 5, 4]);
    assert_eq!(copied(&[2, 3], &[-3, 0]), [4, 5, 6, 1, 2, 3]);
    assert_eq!(copied(&[2, 3], &[-3, 1]), [4, 5, 6, 1, 2, 3]);
    assert_eq!(copied(&[2, 3], &[-3, -1]), [6, 5, 4, 3, 2, 1]);
    let turned = |stride: &[i32]| {
        let tensor = strided(&[2, 3], stride);
        moved(&tensor, &default(&tensor).with_perm(four(&[1, 0])), &count_up(6))
    };
    // Clockwise 4 1, 5 2, 6 3; counter-clockwise 3 6, 2 5, 1 4; and at the other diagonal.
    assert_eq!(turned(&[-3, 0]), [4, 1, 5, 2, 6, 3]);
    assert_eq!(turned(&[0, -1]), [3, 6, 2, 5, 1, 4]);
    assert_eq!(turned(&[-3, -1]), [6, 3, 5, 2, 4, 1]);
    assert_eq!(turned(&[0, 0]), [1, 4, 2, 5, 3, 6]);
}

#[test]
fn signs_side_by_side() {
    // (a,b,c) lies at 4 a + 2 (1 - b) + c, and at 4 (1 - a) + 2 b + (1 - c).
    assert_eq!(copied(&[2, 2, 2], &[0, -2, 0]), [3, 4, 1, 2, 7, 8, 5, 6]);
    assert_eq!(copied(&[2, 2, 2], &[-4, 0, -1]), [6, 5, 8, 7, 2, 1, 4, 3]);
    let sizes = |stride: &[i32]| source_of(&strided(&[2, 2, 2], stride));
    assert_eq!(sizes(&[0, -2, 0]), Source { status: 0, dimension: 0, stride: [4, 2, 1, 0], span: 8 });
    assert_eq!(sizes(&[-4, 0, -1]), Source { status: 0, dimension: 0, stride: [4, 2, 1, 0], span: 8 });
    // -1, 0 and 1 are of the same size where only one dimension has more than one element.
    assert_eq!((copied(&[3, 1, 1], &[-1, 0, 1]), copied(&[3, 1, 1], &[0, -1, 1])), (vec![3, 2, 1], vec![1, 2, 3]));
    assert_eq!((copied(&[1, 3, 1], &[0, 1, -1]), copied(&[1, 3, 1], &[0, -1, 0])), (vec![1, 2, 3], vec![3, 2, 1]));
    // With gaps the zero stands for 2 x 3.
    assert_eq!(copied(&[2, 3], &[0, -2]), [5, 3, 1, 11, 9, 7]);
    assert_eq!(source_of(&strided(&[2, 3], &[0, -2])).span, 11);
    // (y,x) lies at 5 (1 - y) + 2 (1 - x).
    assert_eq!(copied(&[2, 2], &[-5, -2]), [8, 6, 3, 1]);
}

#[test]
fn a_cut_does_not_move_the_coordinates() {
    // Coordinate x of seven bytes is 7 - x.
    let row = strided(&[7], &[-1]);
    let cut = |offset: u32, size: u32, step: u32| {
        let config = default(&row).with_offset(four(&[offset])).with_size(four(&[size])).with_step(four(&[step]));
        moved(&row, &config, &count_up(7))
    };
    assert_eq!((cut(1, 4, 1), cut(4, 0, 1), cut(0, 2, 1)), (vec![6, 5, 4, 3], vec![3, 2, 1], vec![7, 6]));
    assert_eq!((cut(1, 4, 2), cut(1, 5, 3), cut(0, 0, 3)), (vec![6, 4], vec![6, 3], vec![7, 4, 1]));
    assert_eq!((cut(6, 1, 1), cut(0, 0, 9)), (vec![1], vec![7]));
    // B upside down, and right to left: rows 9 to 12, 5 to 8, 1 to 4; rows 4 to 1, 8 to 5, 12 to 9.
    let b = |stride: &[i32]| {
        let tensor = strided(&[3, 4], stride);
        let config = default(&tensor).with_offset(four(&[1, 1])).with_size(four(&[2, 2]));
        moved(&tensor, &config, &count_up(12))
    };
    assert_eq!((b(&[-4, 0]), b(&[0, -1])), (vec![6, 7, 2, 3], vec![7, 6, 11, 10]));
    // H in half a turn: (y,x) is 12 - 4 y - x.
    let tensor = strided(&[3, 4], &[-4, -1]);
    let config = default(&tensor).with_offset(four(&[0, 1])).with_step(four(&[2, 2])).with_perm(four(&[1, 0]));
    assert_eq!(moved(&tensor, &config, &count_up(12)), [11, 3, 9, 1]);
    // D right to left, with a fill.
    let tensor = strided(&[1, 2], &[0, -1]);
    let config = default(&tensor).with_pre(four(&[1, 0])).with_post(four(&[0, 1])).with_fill(9);
    assert_eq!(moved(&tensor, &config, &[5, 6]), [9, 9, 9, 6, 5, 9]);
}

#[test]
fn a_unit_dimension_has_nothing_to_count() {
    assert_eq!((copied(&[1, 3], &[-3, 0]), copied(&[1, 3], &[-100, -1])), (vec![1, 2, 3], vec![3, 2, 1]));
    assert_eq!(copied(&[3, 1], &[0, -1]), [1, 2, 3]);
    let tensor = strided(&[1, 3], &[-LARGEST, -1]);
    assert_eq!(source_of(&tensor), Source { status: 0, dimension: 0, stride: [2_147_483_647, 1, 0, 0], span: 3 });
    assert_eq!(copied(&[1, 3], &[-LARGEST, -1]), [3, 2, 1]);
}

#[test]
fn both_ends_of_the_range() {
    let of = |shape: &[u32], stride: &[i32]| source_of(&strided(shape, stride));
    let refusal = |dimension: u8| Source { status: 4, dimension, ..Source::default() };
    let two = Source { status: 0, dimension: 0, stride: [2_147_483_647, 0, 0, 0], span: 2_147_483_648 };
    assert_eq!((of(&[2], &[LARGEST]), of(&[2], &[-LARGEST]), of(&[2], &[LEAST])), (two, two, refusal(0)));
    assert_eq!((of(&[1], &[-LARGEST]).span, of(&[1], &[LEAST])), (1, refusal(0)));
    // 1 + 65,534 x 2,147,483,647, four bytes each.
    let longest = Tensor { element_size: 4, ..strided(&[65_535], &[-LARGEST]) };
    assert_eq!(source_of(&longest).span, 562_932_773_289_996);
    for end in [LARGEST, -LARGEST] {
        // Farther in only where the shape is 1: twice as much is above the limit, whatever stands outside.
        let expected = Source { stride: [2_147_483_647, 2_147_483_647, 0, 0], ..two };
        assert_eq!((of(&[2, 1], &[0, end]), of(&[2, 1], &[LARGEST, end])), (expected, expected));
        assert_eq!((of(&[2, 1], &[-LARGEST, end]), of(&[2, 1], &[-LARGEST + 1, end])), (expected, refusal(0)));
        assert_eq!((of(&[1, 2], &[0, end]), of(&[1, 2], &[-LARGEST, end])), (refusal(0), refusal(0)));
    }
    // The first one met outward; and the smallest size that is not below the inner product.
    assert_eq!((of(&[2, 2], &[LEAST, LEAST]), of(&[2, 2], &[LEAST, 1])), (refusal(1), refusal(0)));
    assert_eq!((of(&[2, 2], &[-1, -1]), of(&[2, 2], &[-2, -1]).status), (refusal(0), 0));
    assert_eq!((of(&[2, 2, 3], &[0, -2, 0]), of(&[2, 2, 3], &[-5, -3, -1])), (refusal(1), refusal(0)));
}

#[test]
fn numbers_beside_4() {
    let config = default(&plane(&[1, 1]));
    let at = |shape: &[u32], stride: &[i32], source: u64| judge(&strided(shape, stride), &config, source, 1_000);
    assert_eq!((at(&[0, 3], &[0, LEAST], 6), at(&[2, 3], &[0, LEAST], 0)), (refused(3, 0), refused(4, 1)));
    assert_eq!((at(&[2, 3], &[-2, -1], 0), at(&[2, 3], &[-3, -1], 5)), (refused(4, 0), refused(5, 0)));
    assert_eq!(at(&[2, 3], &[-3, -1], 6).status, 0);
    // Past the rank nothing is looked at.
    assert_eq!(judge(&strided(&[2, 3], &[-3, -1, LEAST, -1]), &config, 6, 6).need, 6);
    // Destination strides have no sign: from 2^31 on they are 11.
    let written = |stride: u32| judge(&plane(&[2, 1]), &config.with_dst_stride(four(&[stride])), 2, u64::MAX);
    assert_eq!((written(1 << 31), written(u32::MAX)), (refused(11, 0), refused(11, 0)));
    assert_eq!(written((1 << 31) - 1).need, 2_147_483_648);
}

/// A part of a plane of bytes that is just long enough.
fn part_of(tensor: &Tensor, offset: &[u32], size: &[u32], rank: u32) -> SubTensor {
    sub_tensor(tensor, &SubConfig { offset: four(offset), size: four(size), rank }, source_of(tensor).span)
}

/// The same as a call tells it: shape, strides and byte.
fn told(tensor: &Tensor, offset: &[u32], size: &[u32], rank: u32) -> ([u32; 4], [i32; 4], u64) {
    let sub = part_of(tensor, offset, size, rank);
    assert_eq!((sub.status, sub.tensor.rank as u32, sub.tensor.element_size), (0, rank, tensor.element_size));
    (sub.tensor.shape, sub.tensor.stride, sub.byte)
}

#[test]
fn a_sub_tensor_starts_at_its_lowest_element() {
    // K: (1,2) and (1,3) are 7 and 8, with both signs 6 and 5.
    let k = |stride: &[i32]| told(&strided(&[3, 4], stride), &[1, 2], &[1, 2], 1);
    assert_eq!(k(&[0, 0]), ([2, 0, 0, 0], [1, 0, 0, 0], 6));
    assert_eq!(k(&[-4, -1]), ([2, 0, 0, 0], [-1, 0, 0, 0], 4));
    assert_eq!(k(&[0, -1]), ([2, 0, 0, 0], [-1, 0, 0, 0], 4));
    assert_eq!(k(&[-4, 0]), ([2, 0, 0, 0], [1, 0, 0, 0], 6));
    let half = strided(&[3, 4], &[-4, -1]);
    assert_eq!(told(&half, &[1, 2], &[1, 2], 2), ([1, 2, 0, 0], [-4, -1, 0, 0], 4));
    // 4 (3 - 0 - 2) + (4 - 1 - 2), in elements of two bytes.
    let samples = Tensor { element_size: 2, ..half };
    assert_eq!(told(&samples, &[0, 1], &[2, 2], 2), ([2, 2, 0, 0], [-4, -1, 0, 0], 10));
    assert_eq!(told(&half, &[0, 0], &[3, 4], 2), ([3, 4, 0, 0], [-4, -1, 0, 0], 0));
    assert_eq!(told(&half, &[0, 0], &[1, 1], 1), ([1, 0, 0, 0], [-1, 0, 0, 0], 11));
}

#[test]
fn unit_dimensions_go_with_their_signs() {
    // Strides 6, 2 and 1: 2 (3 - 1 - 1); 6 (2 - 0 - 1) + 2 (3 - 2 - 1).
    let tensor = strided(&[2, 3, 2], &[-6, -2, 0]);
    assert_eq!(told(&tensor, &[0, 1, 0], &[2, 1, 2], 2), ([2, 2, 0, 0], [-6, 1, 0, 0], 2));
    assert_eq!(told(&tensor, &[0, 2, 0], &[1, 1, 2], 2), ([1, 2, 0, 0], [-2, 1, 0, 0], 6));
    assert_eq!(told(&tensor, &[0, 2, 1], &[1, 1, 1], 1), ([1, 0, 0, 0], [1, 0, 0, 0], 7));
    // What stands past the rank does not count.
    let more = strided(&[2, 3, 2], &[-6, -2, 0, -9]);
    assert_eq!(told(&more, &[0, 1, 0], &[2, 1, 2], 2), ([2, 2, 0, 0], [-6, 1, 0, 0], 2));
    let refusal = SubTensor { status: 4, dimension: 1, ..SubTensor::default() };
    assert_eq!(part_of(&strided(&[2, 3], &[0, LEAST]), &[0, 0], &[1, 1], 1), refusal);
}

#[test]
fn a_move_reads_a_sub_tensor() {
    // Rows 3 2 1, 6 5 4, 9 8 7, 12 11 10: of the second and third the first two. Its lowest is 5, at byte 3 + 3 - 2.
    let tensor = strided(&[4, 3], &[0, -1]);
    let config = SubConfig { offset: four(&[1, 0]), size: four(&[2, 2]), rank: 2 };
    let source = count_up(12);
    let sub = sub_tensor(&tensor, &config, 12);
    assert_eq!((sub.tensor, sub.byte), (strided(&[2, 2], &[3, -1]), 4));
    let part = sub_part(&tensor, &config, &source);
    assert_eq!(part, &source[4..]);
    assert_eq!(moved(&sub.tensor, &default(&sub.tensor), part), [6, 5, 9, 8]);
}

/// Example A, its strides being these words.
fn record_with(words: [[u8; 4]; 4]) -> Vec<u8> {
    let mut bytes = record_a();
    bytes[23..39].copy_from_slice(&words.concat());
    bytes
}

#[test]
fn words_of_a_record_are_in_twos_complement() {
    let words =
        [([0xff; 4], -1), ([0, 0, 0, 0x80], LEAST), ([1, 0, 0, 0x80], -LARGEST), ([0xff, 0xff, 0xff, 0x7f], LARGEST)];
    for (word, stride) in words {
        let bytes = record_with([[0xfd, 0xff, 0xff, 0xff], word, [0; 4], [0; 4]]);
        let reading = read(&bytes);
        assert_eq!((reading.status, reading.tensor.stride), (0, [-3, stride, 0, 0]));
        let mut room = vec![9; 131];
        assert_eq!(write(&reading.tensor, &reading.config, &mut room), Fault::default());
        assert_eq!(room, bytes);
        // Behind an empty list, and in version 2.
        let appended = append(&reading.tensor, &reading.config, 7, [b"RML\x01\0\0\0", &[9; 131][..]].concat());
        assert_eq!((appended.status, appended.length, &appended.buffer.0[7..]), (0, 138, &bytes[..]));
        assert_eq!(record_at(&appended.buffer.0, 0).reading, reading);
        assert_eq!(first_two(&appended.buffer.0).first.reading, reading);
        let filled = reading.config.with_fill(5);
        let mut room = vec![9; 135];
        assert_eq!(write(&reading.tensor, &filled, &mut room), Fault::default());
        assert_eq!((&room[23..39], read(&room).tensor), (&bytes[23..39], reading.tensor));
        // Past the rank any word but 0 is refused.
        let past = record_with([[0; 4], [0; 4], word, [0; 4]]);
        assert_eq!((read(&past).status, read(&past).dimension), (28, 2));
        let tensor = strided(&[2, 3], &[0, 0, 0, stride]);
        assert_eq!(fields_fault(1, &tensor, &reading.config), Fault { status: 28, dimension: 3 });
    }
}

#[test]
fn a_line_has_the_same_words() {
    let tensor = strided(&[2, 3], &[-3, LEAST, 1, -LARGEST]);
    let bytes = bytes_of(&tensor);
    let words = [[0xfd, 0xff, 0xff, 0xff], [0, 0, 0, 0x80], [1, 0, 0, 0], [1, 0, 0, 0x80]];
    assert_eq!((bytes.len(), &bytes[18..]), (34, &words.concat()[..]));
    assert_eq!(whole::<Tensor>(&bytes), Some(tensor));
}

#[test]
fn programs_print_what_is_moved() {
    // A with strides (0, -1) and (-3, 0), counter-clockwise and clockwise; and with the least number.
    let shown = |stride: [i32; 2]| {
        let words = [stride[0].to_le_bytes(), stride[1].to_le_bytes(), [0; 4], [0; 4]];
        show(&[record_with(words), count_up(6)].concat())
    };
    let turned = |bytes: &str| format!("status 0 dim 0\nshape 3 2 stride 2 1\nneed 6\n{bytes}\n");
    assert_eq!(shown([0, -1]), turned("03 06 02 05 01 04"));
    assert_eq!(shown([-3, 0]), turned("04 01 05 02 06 03"));
    assert_eq!((shown([LEAST, 0]), shown([0, LEAST])), ("status 4 dim 0\n".into(), "status 4 dim 1\n".into()));
    let list = [
        b"RML\x01\0\x02\0".to_vec(),
        record_with([[0; 4], [0xff; 4], [0; 4], [0; 4]]),
        record_with([[0, 0, 0, 0x80]; 4]),
    ];
    let first = "record 0 status 0 dim 0 rank 2 element 1 shape 2 3 room 0 dim 0 span 6 need 6\n";
    assert_eq!(show_list(&list.concat()), format!("status 0 records 2\n{first}record 1 status 28 dim 2\n"));
}

#[test]
fn transfers_step_through_a_mirrored_source() {
    // Two transfers of the same six bytes: half a turn, and a quarter turn clockwise.
    let job = |stride: &[i32], perm: &[u8], to: u64| {
        let tensor = strided(&[2, 3], stride);
        let part = |start: u64| Part { start, length: 6 };
        let config = default(&tensor).with_perm(four(perm));
        Job { source: part(0), destination: part(to), tensor, config }
    };
    let (half, quarter) = (job(&[-3, -1], &[0, 1], 6), job(&[-3, 0], &[1, 0], 12));
    let table = prepare(&fresh(18).table, &half, 18).table;
    let table = prepare(&table, &quarter, 18).table;
    assert_eq!((table.slot[0].job, table.slot[1].job), (half, quarter));
    let mut table = start(&start(&table, 0, 18).table, 1, 18).table;
    let mut memory = [count_up(6), vec![0; 12]].concat();
    for (handle, budget, count, after) in [
        (0, 1, 1, [6, 0, 0, 0, 0, 0, 0, 0, 0, 0, 0, 0]),
        (1, 3, 3, [6, 0, 0, 0, 0, 0, 4, 1, 5, 0, 0, 0]),
        (0, 4, 4, [6, 5, 4, 3, 2, 0, 4, 1, 5, 0, 0, 0]),
        (0, 9, 1, [6, 5, 4, 3, 2, 1, 4, 1, 5, 0, 0, 0]),
        (1, 3, 3, [6, 5, 4, 3, 2, 1, 4, 1, 5, 2, 6, 3]),
    ] {
        let stepped = step(&table, handle, budget, memory);
        assert_eq!((stepped.status, stepped.count, &stepped.memory.0[6..]), (0, count, &after[..]));
        (table, memory) = (stepped.table, stepped.memory.0);
    }
    assert_eq!(poll(&table, 1), Poll { status: 0, state: DONE, left: 0 });
    // A stretch by the plain engine, from the third element on.
    let advanced = plain::advance(&quarter, 2, 3, [count_up(6), vec![0; 12]].concat());
    assert_eq!((advanced.count, &advanced.memory.0[12..]), (3, &[0, 0, 5, 2, 6, 0][..]));
}
