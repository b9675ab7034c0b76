//! Which cases of signed strides are told apart, worked out by hand.

use super::{cases_of_call, default, four, plane};
use crate::cases::signs::{cases, met};
use crate::helpers::SubConfig;
use crate::job::{Job, Part};
use crate::moves::{room, Config};
use crate::record::pack;
use crate::tensor::{source_of, Tensor};
use crate::transfers::{fresh, Slot, PREPARED};
use crate::wire::{bytes_of, Counted, Memory, Rest};

fn of_call(number: u8, arguments: Vec<u8>) -> String {
    cases_of_call((cases, met), number, arguments)
}

fn strided(shape: &[u32], stride: &[i32]) -> Tensor {
    Tensor { stride: four(stride), ..plane(shape) }
}

#[test]
fn ends_of_the_range() {
    let of = |shape: &[u32], stride: &[i32]| of_call(0x01, bytes_of(&strided(shape, stride)));
    assert_eq!((of(&[2, 3], &[0, 1]), of(&[2, 3], &[0, -1])), (String::new(), "counts down".into()));
    assert_eq!((of(&[2], &[i32::MAX]), of(&[1], &[-i32::MAX])), ("2147483647 at 0".into(), "-2147483647 at 0".into()));
    assert_eq!((of(&[1], &[-5]), of(&[2, 1], &[0, -i32::MAX])), (String::new(), "-2147483647 at 1".into()));
    assert_eq!(
        (of(&[2], &[i32::MIN]), of(&[2, 1, 1], &[0, 0, i32::MIN])),
        ("4 by -2147483648 at 0".into(), "4 by -2147483648 at 2".into())
    );
    assert_eq!(of(&[2, 0], &[i32::MIN, 0]), "3 and 4 by -2147483648");
    // A size of 2 around rows of three; a positive one has been refused before.
    assert_eq!((of(&[2, 3], &[-2, 0]), of(&[2, 3], &[2, 0])), ("4 below the inner product at 0".into(), String::new()));
    assert_eq!(of(&[1, 2], &[0, i32::MAX]), "4 at 0 outside 2147483647");
    assert_eq!(of(&[1, 2], &[-7, -i32::MAX]), "4 below the inner product at 0; 4 at 0 outside -2147483647");
    // Past the rank stands anything.
    assert_eq!(of(&[2], &[0, i32::MIN, -1, -i32::MAX]), "");
}

#[test]
fn lengths() {
    let of = |stride: &[i32], source: u64| {
        let tensor = strided(&[2, 3], stride);
        of_call(0x03, bytes_of(&(tensor, default(&tensor), source, 6u64)))
    };
    let short = "5 by a byte of a plane that counts down";
    assert_eq!((of(&[0, -1], 5), of(&[0, -1], 4), of(&[0, 1], 5)), (short.into(), String::new(), String::new()));
    assert_eq!(of(&[0, i32::MIN], 0), "4 by -2147483648 at 1; 4 by a negative stride and 5");
    assert_eq!((of(&[0, i32::MIN], 1), of(&[1, 0], 0)), ("4 by -2147483648 at 1".into(), String::new()));
}

fn moved(tensor: Tensor, config: Config) -> String {
    let room = room(&tensor, &config);
    let (source, destination) = (vec![7; room.span as usize], vec![7; room.answer.need as usize]);
    of_call(0x26, bytes_of(&(tensor, config, Counted(source), Memory(destination))))
}

fn copied(shape: &[u32], stride: &[i32]) -> String {
    moved(strided(shape, stride), default(&plane(shape)))
}

#[test]
fn planes_that_are_moved() {
    assert_eq!(
        (copied(&[3], &[-1]), copied(&[3], &[1])),
        ("counts down; 1 of 1 dimensions count down".into(), String::new())
    );
    assert_eq!(copied(&[2, 3], &[-3, 0]), "counts down; 1 of 2 dimensions count down; negative around zero");
    assert_eq!(copied(&[2, 3], &[3, -1]), "counts down; 1 of 2 dimensions count down; positive around negative");
    assert_eq!(copied(&[2, 3], &[-3, -1]), "counts down; 2 of 2 dimensions count down; negative around negative");
    // A dimension of shape 1 has a sign, and nothing to count.
    assert_eq!(copied(&[1, 3], &[-3, 0]), "negative stride of shape 1");
    assert_eq!(copied(&[1, 3], &[0, -1]), "counts down");
    // The only element has no other to be told from.
    assert_eq!((copied(&[1], &[-1]), copied(&[1], &[1])), (String::new(), String::new()));
}

#[test]
fn what_is_done_with_a_dimension() {
    let plain = default(&plane(&[7]));
    let of = |config: Config| {
        let all = moved(strided(&[7], &[-1]), config);
        all.strip_prefix("counts down; 1 of 1 dimensions count down").unwrap().to_string()
    };
    assert_eq!(
        (of(plain), of(plain.with_step(four(&[9])).with_pre(four(&[1])))),
        (String::new(), "; padded before, counting down".into())
    );
    assert_eq!(of(plain.with_offset(four(&[1]))), "; cut before, counting down");
    assert_eq!(of(plain.with_size(four(&[6]))), "; cut behind, counting down");
    assert_eq!(of(plain.with_offset(four(&[1])).with_size(four(&[5]))), "; cut on both sides, counting down");
    assert_eq!(of(plain.with_offset(four(&[1])).with_size(four(&[6]))), "; cut before, counting down");
    assert_eq!(of(plain.with_step(four(&[6]))), "; thinned, counting down");
    assert_eq!(of(plain.with_post(four(&[2]))), "; padded behind, counting down");
    let turned = moved(strided(&[2, 3], &[0, -2]), default(&plane(&[2, 3])).with_perm(four(&[1, 0])));
    assert!(turned.ends_with("zero around negative; permuted, counting down; with gaps, counting down"));
}

#[test]
fn stretches() {
    let tensor = strided(&[3], &[-1]);
    let part = |start: u64| Part { start, length: 3 };
    let job = Job { source: part(0), destination: part(3), tensor, config: default(&tensor) };
    let of = |from: u64, budget: u64| of_call(0x22, bytes_of(&(job, from, budget, Memory(vec![7; 6]))));
    assert_eq!((of(1, 2), of(2, 2)), ("counts down; 1 of 1 dimensions count down".into(), "counts down".into()));
}

#[test]
fn sub_tensors() {
    let of = |stride: &[i32], offset: [u32; 2], size: [u32; 2], rank: u32| {
        let tensor = strided(&[4, 5], stride);
        let config = SubConfig { offset: four(&offset), size: four(&size), rank };
        let all = of_call(0x06, bytes_of(&(tensor, config, source_of(&tensor).span)));
        all.strip_prefix("counts down").map_or(all.clone(), str::to_string)
    };
    assert_eq!((of(&[0, 0], [1, 1], [2, 2], 2), of(&[0, -1], [1, 0], [1, 5], 1)), (String::new(), String::new()));
    let beside = "; stride 0 beside one that counts down";
    assert_eq!(of(&[0, -1], [0, 0], [4, 5], 2), beside);
    assert_eq!(of(&[0, -1], [0, 2], [4, 3], 2), format!("; sub-tensor cut before, counting down{beside}"));
    assert_eq!(of(&[0, -1], [0, 0], [4, 3], 2), format!("; sub-tensor cut behind, counting down{beside}"));
    assert_eq!(of(&[5, -1], [0, 1], [4, 3], 2), "; sub-tensor cut on both sides, counting down");
    let behind = "; sub-tensor cut behind, counting down";
    assert_eq!(of(&[-5, 1], [0, 0], [1, 5], 1), format!("{behind}; unit dimension removed, counting down"));
    assert_eq!(of(&[-5, 1], [0, 0], [1, 5], 2), format!("{behind}; unit dimension kept, counting down"));
    assert_eq!(of(&[-5, -1], [0, 0], [4, 5], 2), "; sub-tensor of a plane that counts down throughout");
    assert_eq!(of(&[-5, -1], [0, 0], [4, 6], 2), "");
}

#[test]
fn records() {
    let of = |stride: &[i32]| {
        let tensor = strided(&[2, 3], stride);
        of_call(0x30, bytes_of(&Rest(pack(&tensor, &default(&tensor)))))
    };
    assert_eq!((of(&[-2, 1]), of(&[-1, i32::MAX])), (String::new(), "stride -1; stride 2147483647".into()));
    assert_eq!(of(&[i32::MIN, -i32::MAX]), "stride -2147483648; stride -2147483647");
    let past = "28 by a negative stride past the rank";
    assert_eq!((of(&[0, 0, -1]), of(&[0, 0, 1]), of(&[0, 0, 0, i32::MIN])), (past.into(), String::new(), past.into()));
    // Beside another entry, which is refused by itself.
    let tensor = Tensor { shape: four(&[2, 3, 0, 1]), ..strided(&[2, 3], &[0, 0, -1]) };
    assert_eq!(of_call(0x3b, bytes_of(&(1u16, tensor, default(&plane(&[1, 1]))))), "");
}

#[test]
fn slots() {
    let of = |number: u8, stride: &[i32]| {
        let tensor = strided(&[2, 3], stride);
        let part = |start: u64| Part { start, length: 6 };
        let job = Job { source: part(0), destination: part(6), tensor, config: default(&plane(&[1, 1])) };
        let mut table = fresh(64).table;
        table.slot[0] = Slot { state: PREPARED, job, moved: 0 };
        match number {
            0x45 => of_call(number, bytes_of(&(table, 0u32))),
            0x51 => of_call(number, bytes_of(&(table, 1u64, 0u32, 1u32))),
            _ => of_call(number, bytes_of(&(table, 0u32, Rest(vec![7; 64])))),
        }
    };
    assert_eq!(
        (of(0x45, &[0, -1]), of(0x42, &[-3, 0])),
        ("slot that counts down".into(), "slot that counts down".into())
    );
    assert_eq!((of(0x45, &[0, 1]), of(0x51, &[0, -1])), (String::new(), String::new()));
    for number in [0x42, 0x44, 0x45, 0x51] {
        assert_eq!(of(number, &[0, i32::MIN]), "18 by -2147483648 of a slot");
        assert_eq!(of(number, &[-2, 0]), "");
    }
}
