//! "Easy errors", as far as the marked examples do not show them.

use super::{count_up, default, four, moved, plane};
use crate::helpers::{sub_part, sub_tensor, SubConfig};
use crate::job::{Job, Part};
use crate::transfers::{fresh, prepare};

#[test]
fn stride_0_is_resolved_before_it_goes_into_a_sub_tensor() {
    let tensor = plane(&[3, 4]);
    let config = SubConfig { offset: four(&[1, 1]), size: four(&[2, 2]), rank: 2 };
    let source = count_up(12);
    let sub = sub_tensor(&tensor, &config, 12);
    assert_eq!((sub.tensor.shape, sub.tensor.stride), ([2, 2, 0, 0], [4, 1, 0, 0]));
    let part = sub_part(&tensor, &config, &source);
    assert_eq!(part, &source[5..]);
    assert_eq!(moved(&sub.tensor, &default(&sub.tensor), part), [6, 7, 10, 11]);
}

#[test]
fn destination_i_is_source_perm_i() {
    // Shape (1,2,3) with (1,2,0) becomes (2,3,1), not (3,1,2).
    let tensor = plane(&[1, 2, 3]);
    let config = default(&tensor).with_perm([1, 2, 0, 0]);
    assert_eq!(crate::moves::room(&tensor, &config).answer.extent, [2, 3, 1, 0]);
    // The first destination coordinate walks the last source dimension.
    let cube = plane(&[2, 2, 2]);
    let turned = default(&cube).with_perm([2, 0, 1, 0]);
    assert_eq!(moved(&cube, &turned, &count_up(8)), [1, 3, 5, 7, 2, 4, 6, 8]);
}

#[test]
fn prepared_slots_count_too() {
    let memory = 8;
    let tensor = plane(&[2]);
    let job = |from: u64, to: u64| Job {
        source: Part { start: from, length: 2 },
        destination: Part { start: to, length: 2 },
        tensor,
        config: default(&tensor),
    };
    let table = prepare(&fresh(8).table, &job(0, 4), memory).table;
    assert_eq!(prepare(&table, &job(2, 5), memory).status, 22);
    assert_eq!(prepare(&table, &job(2, 1), memory).status, 21);
    assert_eq!(prepare(&table, &job(4, 6), memory).status, 22);
    assert_eq!(prepare(&table, &job(0, 6), memory).status, 0);
}
