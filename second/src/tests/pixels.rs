//! One pixel: examples and refusals with values typed in from the paper or worked out by hand; and every pixel of drawn
//! moves held against what the whole move stores.

use super::{count_up, default, four, plane};
use crate::calls::Calls;
use crate::generate;
use crate::lines::{answers, hex, unhex};
use crate::moves::{coordinates, move_plane, plan, Answer, Config};
use crate::pixel::{pixel, Pixel};
use crate::tensor::Tensor;
use crate::wire::{whole, Counted, Memory};

fn kept(bytes: &[u8]) -> Pixel {
    Pixel { status: 0, dimension: 0, bytes: four(bytes), padding: 0 }
}

fn padded(bytes: &[u8]) -> Pixel {
    Pixel { padding: 1, ..kept(bytes) }
}

fn refused(status: u8, dimension: u8) -> Pixel {
    Pixel { status, dimension, ..Pixel::default() }
}

/// Example A.
fn a() -> (Tensor, Config) {
    let tensor = plane(&[2, 3]);
    (tensor, default(&tensor).with_perm([1, 0, 0, 0]))
}

/// Example D.
fn d() -> (Tensor, Config) {
    let tensor = plane(&[1, 2]);
    (tensor, default(&tensor).with_pre([1, 0, 0, 0]).with_post([0, 1, 0, 0]))
}

#[test]
fn a_is_permuted() {
    let (tensor, config) = a();
    let at = |coordinate: &[u32]| pixel(&tensor, &config, &four(coordinate), &count_up(6));
    assert_eq!(at(&[2, 1]), kept(&[6]));
    // 1 4 2 5 3 6, two to a row.
    assert_eq!((at(&[0, 0]), at(&[0, 1]), at(&[1, 0]), at(&[1, 1])), (kept(&[1]), kept(&[4]), kept(&[2]), kept(&[5])));
    // (1,2) is no coordinate of the destination, though it is one of the source.
    assert_eq!((at(&[1, 2]), at(&[2, 0])), (refused(35, 1), kept(&[3])));
}

#[test]
fn d_is_padded() {
    let (tensor, config) = d();
    let at = |coordinate: &[u32]| pixel(&tensor, &config, &four(coordinate), &[5, 6]);
    assert_eq!(at(&[0, 0]), padded(&[0]));
    assert_eq!((at(&[0, 1]), at(&[0, 2]), at(&[1, 2])), (padded(&[0]), padded(&[0]), padded(&[0])));
    assert_eq!((at(&[1, 0]), at(&[1, 1])), (kept(&[5]), kept(&[6])));
}

#[test]
fn g_is_padded_by_source_dimension() {
    let tensor = plane(&[1, 2]);
    let config = default(&tensor).with_pre([1, 0, 0, 0]).with_perm([1, 0, 0, 0]);
    let at = |coordinate: &[u32]| pixel(&tensor, &config, &four(coordinate), &[5, 6]);
    assert_eq!(at(&[1, 1]), kept(&[6]));
    assert_eq!((at(&[0, 0]), at(&[1, 0]), at(&[0, 1])), (padded(&[0]), padded(&[0]), kept(&[5])));
}

#[test]
fn unused_bytes_are_0() {
    let (tensor, config) = d();
    let of_size = |element_size: u8, coordinate: &[u32]| {
        let tensor = Tensor { element_size, ..tensor };
        pixel(&tensor, &config.with_fill(0x0403_0201), &four(coordinate), &count_up(8)[..2 * element_size as usize])
    };
    assert_eq!(of_size(3, &[0, 0]), padded(&[1, 2, 3]));
    assert_eq!((of_size(1, &[0, 0]), of_size(2, &[1, 2])), (padded(&[1]), padded(&[1, 2])));
    assert_eq!(of_size(4, &[0, 2]), padded(&[1, 2, 3, 4]));
    assert_eq!((of_size(1, &[1, 1]), of_size(2, &[1, 1])), (kept(&[2]), kept(&[3, 4])));
    assert_eq!((of_size(3, &[1, 1]), of_size(4, &[1, 1])), (kept(&[4, 5, 6]), kept(&[5, 6, 7, 8])));
}

#[test]
fn padding_is_told_by_where_an_element_comes_from() {
    let (tensor, config) = d();
    let at = |fill: u32, coordinate: &[u32]| pixel(&tensor, &config.with_fill(fill), &four(coordinate), &[0, 6]);
    // A kept zero is none, whatever the fill, and neither is a kept 6 with a fill of 6.
    assert_eq!((at(0, &[1, 0]), at(9, &[1, 0]), at(6, &[1, 1])), (kept(&[0]), kept(&[0]), kept(&[6])));
    assert_eq!((at(0, &[1, 2]), at(6, &[1, 2])), (padded(&[0]), padded(&[6])));
}

#[test]
fn offsets_and_steps() {
    // H: 2 10 4 12.
    let h = plane(&[3, 4]);
    let config = default(&h).with_offset([0, 1, 0, 0]).with_step([2, 2, 0, 0]).with_perm([1, 0, 0, 0]);
    let at = |coordinate: &[u32]| pixel(&h, &config, &four(coordinate), &count_up(12));
    assert_eq!(
        (at(&[0, 0]), at(&[0, 1]), at(&[1, 0]), at(&[1, 1])),
        (kept(&[2]), kept(&[10]), kept(&[4]), kept(&[12]))
    );
    // Shape (2,4,8) with (2,0,1): (7,1,2) is the source's (1,2,7), which is 32 + 16 + 7.
    let tensor = plane(&[2, 4, 8]);
    let config = default(&tensor).with_perm([2, 0, 1, 0]);
    assert_eq!(pixel(&tensor, &config, &four(&[7, 1, 2]), &count_up(64)), kept(&[56]));
    assert_eq!(pixel(&tensor, &config, &four(&[1, 2, 3]), &count_up(64)), refused(35, 1));
}

#[test]
fn planes_that_count_down() {
    let tensor = Tensor { stride: [0, -1, 0, 0], ..plane(&[2, 3]) };
    let config = default(&tensor);
    let at =
        |tensor: &Tensor, config: &Config, coordinate: &[u32]| pixel(tensor, config, &four(coordinate), &count_up(6));
    // 3 2 1, 6 5 4.
    assert_eq!((at(&tensor, &config, &[0, 0]), at(&tensor, &config, &[1, 2])), (kept(&[3]), kept(&[4])));
    // By a quarter turn clockwise: 4 1, 5 2, 6 3.
    let up = Tensor { stride: [-3, 0, 0, 0], ..tensor };
    let turned = config.with_perm([1, 0, 0, 0]);
    assert_eq!((at(&up, &turned, &[0, 0]), at(&up, &turned, &[2, 1])), (kept(&[4]), kept(&[3])));
    // From the second on, one before: the whole shape counts.
    let cut = config.with_offset([0, 1, 0, 0]).with_pre([0, 1, 0, 0]);
    assert_eq!((at(&tensor, &cut, &[0, 1]), at(&tensor, &cut, &[0, 0])), (kept(&[2]), padded(&[0])));
}

#[test]
fn entries_past_the_rank_do_not_count() {
    let (tensor, config) = a();
    assert_eq!(pixel(&tensor, &config, &[2, 1, u32::MAX, 3], &count_up(6)), kept(&[6]));
    assert_eq!(pixel(&tensor, &config, &[2, 2, u32::MAX, 3], &count_up(6)), refused(35, 1));
}

#[test]
fn no_destination_is_too_short() {
    // E, and one element that is set as far behind as can be.
    let e = plane(&[1, 2]);
    let config = default(&e).with_dst_offset([1, 0, 0, 0]).with_dst_stride([2, 1, 0, 0]);
    assert_eq!(pixel(&e, &config, &four(&[0, 1]), &[8, 9]), kept(&[9]));
    let one = Tensor { element_size: 4, ..plane(&[1]) };
    let far = default(&one).with_dst_offset([65_535, 0, 0, 0]).with_dst_stride([2_147_483_647, 0, 0, 0]);
    assert_eq!(pixel(&one, &far, &[0; 4], &count_up(4)), kept(&[1, 2, 3, 4]));
    assert_eq!(pixel(&one, &far.with_dst_offset([65_536, 0, 0, 0]), &[0; 4], &count_up(4)), refused(12, 0));
}

#[test]
fn coordinates_outside() {
    let (tensor, config) = a();
    let at = |coordinate: [u32; 4]| pixel(&tensor, &config, &coordinate, &count_up(6));
    assert_eq!(
        (at([3, 0, 0, 0]), at([0, 2, 0, 0]), at([3, 2, 0, 0])),
        (refused(35, 0), refused(35, 1), refused(35, 0))
    );
    for far in [4, 255, 256, 65_536, 65_537, 1 << 31, u32::MAX] {
        assert_eq!((at([far, 0, 0, 0]), at([2, far, 0, 0])), (refused(35, 0), refused(35, 1)));
    }
    // The largest extent has a last coordinate too.
    let long = plane(&[65_280]);
    let config = default(&long).with_pre([255, 0, 0, 0]);
    let at = |c: u32| pixel(&long, &config, &[c, 0, 0, 0], &vec![7; 65_280]);
    assert_eq!((at(65_534), at(65_535), at(254), at(255)), (kept(&[7]), refused(35, 0), padded(&[0]), kept(&[7])));
}

/// A with this change, asked at a coordinate that is outside and at one that is not: both are refused alike.
fn changed(source: usize, change: fn(&mut Tensor, &mut Config)) -> Pixel {
    let (mut tensor, mut config) = a();
    change(&mut tensor, &mut config);
    let at = |coordinate: &[u32]| pixel(&tensor, &config, &four(coordinate), &count_up(source as u8));
    assert_eq!(at(&[2, 1]), at(&[3, 1]));
    at(&[3, 1])
}

#[test]
fn the_order_of_the_numbers() {
    assert_eq!(changed(6, |tensor, _| (tensor.rank, tensor.element_size) = (5, 5)), refused(1, 0));
    assert_eq!(changed(6, |tensor, _| (tensor.element_size, tensor.shape[1]) = (5, 0)), refused(2, 0));
    assert_eq!(changed(6, |tensor, _| (tensor.shape[1], tensor.stride[0]) = (0, i32::MIN)), refused(3, 1));
    assert_eq!(changed(5, |tensor, _| tensor.stride[1] = i32::MIN), refused(4, 1));
    assert_eq!(changed(5, |_, config| config.perm[1] = 1), refused(5, 0));
    assert_eq!(changed(6, |_, config| (config.perm[1], config.offset[0]) = (1, 2)), refused(6, 1));
    assert_eq!(changed(6, |_, config| (config.offset[1], config.size[0]) = (3, 3)), refused(7, 1));
    assert_eq!(changed(6, |_, config| (config.size[1], config.step[0]) = (4, 0)), refused(8, 1));
    assert_eq!(changed(6, |_, config| (config.step[1], config.dst_stride[0]) = (0, 1 << 31)), refused(9, 1));
    assert_eq!(
        changed(6, |_, config| (config.dst_stride[1], config.dst_offset[0]) = (1 << 31, 65_536)),
        refused(11, 1)
    );
    // Rows of two have no room for an offset of 1.
    assert_eq!(changed(6, |_, config| config.dst_offset[1] = 1), refused(12, 1));
    // 5 alone, and 10 between 9 and 11.
    assert_eq!(changed(5, |_, _| ()), refused(5, 0));
    let long = plane(&[1, 65_281]);
    let config = default(&long).with_pre([0, 255, 0, 0]);
    let at = |config: Config| pixel(&long, &config, &[1, 65_536, 0, 0], &vec![7; 65_281]);
    assert_eq!((at(config), at(config.with_step([0, 1, 0, 0]))), (refused(10, 1), refused(9, 0)));
    assert_eq!(at(config.with_dst_stride([1 << 31, 0, 0, 0])), refused(10, 1));
}

#[test]
fn the_line_of_a_call() {
    // Example A as CALLS.md has it, at (2,1) and at (3,1), with anything past the rank. 35 is 23.
    let zeros = "00".repeat(16);
    let begin = format!(
        "28020102000000030000000000000000000000{zeros}{zeros}{zeros}01000000010000000000000000000000{zeros}{zeros}\
         01000000000000000000000000000000"
    );
    let call = |coordinate: &str, source: &str| {
        let answer = answers(&Calls::all(), format!("{begin}{coordinate}{source}\n").as_bytes());
        String::from_utf8(hex(&answer[0])).unwrap()
    };
    assert_eq!(call("020000000100000000000000ffffffff", "010203040506"), "2800000600000000");
    assert_eq!(call("03000000010000000000000000000000", "010203040506"), "2823000000000000");
    assert_eq!(call("03000000010000000000000000000000", ""), "2805000000000000");
    assert_eq!(call("030000000100000000000000000000", ""), "ff04");
}

/// The accepted whole moves of a run: record, configuration, source and destination.
fn drawn_moves() -> Vec<(Tensor, Config, Vec<u8>, Vec<u8>)> {
    let input = generate::calls(8_000, 4);
    let lines = input.split(|&character| character == b'\n').filter_map(|line| unhex(line).ok());
    let moves = lines.filter_map(|bytes| whole(bytes.strip_prefix(&[0x20])?));
    let moves = moves
        .map(|(tensor, config, source, room): (Tensor, Config, Counted, Memory)| (tensor, config, source.0, room.0));
    let lengths = |source: &[u8], room: &[u8]| Some((source.len() as u64, room.len() as u64));
    moves.filter(|(tensor, config, source, room)| plan(tensor, config, lengths(source, room)).is_ok()).collect()
}

/// The bytes at the place of a coordinate: "the sum of (destination offset + c) x stride, in elements".
fn stored(answer: &Answer, config: &Config, c: &[u64; 4], destination: &[u8]) -> Vec<u8> {
    let (rank, size) = (answer.rank as usize, answer.element_size as usize);
    let place: u64 = (0..rank).map(|i| (config.dst_offset[i] as u64 + c[i]) * answer.stride[i] as u64).sum();
    destination[place as usize * size..][..size].to_vec()
}

/// "It equals what the whole move would store there." With a fill of which every bit is another, a padded element is
/// stored otherwise, and a kept one is not.
#[test]
fn every_pixel_is_what_the_move_stores() {
    let (mut moves, mut of_padding) = (0, 0);
    for (tensor, config, source, room) in drawn_moves() {
        let [mut one, mut other] = [room.clone(), room];
        let answer = move_plane(&tensor, &config, &source, &mut one);
        move_plane(&tensor, &config.with_fill(!config.fill), &source, &mut other);
        let plan = plan(&tensor, &config, None).unwrap();
        if plan.extent[..plan.rank].iter().product::<u64>() > 400 {
            continue;
        }
        moves += 1;
        for c in coordinates(&plan) {
            let bytes = stored(&answer, &config, &c, &one);
            let padding = bytes != stored(&answer, &config, &c, &other);
            let expected = if padding { padded(&bytes) } else { kept(&bytes) };
            assert_eq!(pixel(&tensor, &config, &c.map(|entry| entry as u32), &source), expected);
            of_padding += padding as usize;
        }
    }
    assert!(moves > 300 && of_padding > 1_000, "{moves} {of_padding}");
}
