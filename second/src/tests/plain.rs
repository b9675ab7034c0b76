//! The plain engine: examples, stretches and refusals through its calls, with values typed in from the paper or worked
//! out by hand; and the two readings of a move held against each other.

use super::{count_up, default, four, plane, refused};
use crate::calls::Calls;
use crate::cases::{fills, offsets, sizes, stretches};
use crate::coverage::Coverage;
use crate::generate;
use crate::generate::work::{ADVANCE, MOVE};
use crate::job::{self, Advanced, Job, Part};
use crate::lines::{answers, hex, unhex};
use crate::moves::{Answer, Config};
use crate::plain;
use crate::tensor::Tensor;
use crate::wire::{bytes_of, whole, Counted, Memory, Wire, MEMORY_LIMIT};

/// What a call answers, behind its own number.
fn answer<R: Wire>(number: u8, arguments: Vec<u8>) -> R {
    let answer = (Calls::all().find(number).unwrap().answer)(&arguments).unwrap();
    assert_eq!(answer[0], number);
    whole(&answer[1..]).unwrap()
}

/// A whole move: its answer, and the destination afterwards.
fn moved(tensor: &Tensor, config: &Config, source: &[u8], destination: &[u8]) -> (Answer, Vec<u8>) {
    let lent = (Counted(source.to_vec()), Memory(destination.to_vec()));
    let (answer, Memory(destination)) = answer(0x26, bytes_of(&(*tensor, *config, lent.0, lent.1)));
    (answer, destination)
}

/// A move within a memory: the source, then the destination.
struct Stretched {
    tensor: Tensor,
    config: Config,
    source: Vec<u8>,
    destination: Vec<u8>,
}

impl Stretched {
    fn job(&self) -> Job {
        let (source, destination) = (self.source.len() as u64, self.destination.len() as u64);
        let (source, destination) = (Part { start: 0, length: source }, Part { start: source, length: destination });
        Job { source, destination, tensor: self.tensor, config: self.config }
    }

    fn memory(&self) -> Vec<u8> {
        [&self.source[..], &self.destination].concat()
    }

    /// How many elements are moved from this one on with this budget, and the destination afterwards.
    fn at(&self, from: u64, budget: u64) -> (u64, Vec<u8>) {
        let advanced: Advanced = answer(0x27, bytes_of(&(self.job(), from, budget, Memory(self.memory()))));
        assert_eq!((advanced.status, advanced.dimension), (0, 0));
        let (source, destination) = advanced.memory.0.split_at(self.source.len());
        assert_eq!(source, self.source);
        (advanced.count, destination.to_vec())
    }
}

#[test]
fn a_permutes() {
    let tensor = plane(&[2, 3]);
    let config = default(&tensor).with_perm([1, 0, 0, 0]);
    let (answer, destination) = moved(&tensor, &config, &count_up(6), &[9; 6]);
    assert_eq!(destination, [1, 4, 2, 5, 3, 6]);
    assert_eq!((answer.status, answer.dimension, answer.rank, answer.element_size), (0, 0, 2, 1));
    assert_eq!((answer.extent, answer.stride, answer.need), ([3, 2, 0, 0], [2, 1, 0, 0], 6));
    let a = Stretched { tensor, config, source: count_up(6), destination: vec![9; 6] };
    assert_eq!(a.at(0, 6), (6, vec![1, 4, 2, 5, 3, 6]));
    assert_eq!(a.at(1, 4), (4, vec![9, 4, 2, 5, 3, 9]));
}

#[test]
fn d_pads() {
    let tensor = plane(&[1, 2]);
    let config = default(&tensor).with_pre([1, 0, 0, 0]).with_post([0, 1, 0, 0]);
    assert_eq!(moved(&tensor, &config, &[5, 6], &[9; 6]).1, [0, 0, 0, 5, 6, 0]);
    let d = Stretched { tensor, config, source: vec![5, 6], destination: vec![9; 6] };
    assert_eq!(d.at(0, u64::MAX), (6, vec![0, 0, 0, 5, 6, 0]));
    assert_eq!(d.at(1, 3), (3, vec![9, 0, 0, 5, 9, 9]));
    assert_eq!(d.at(4, 9), (2, vec![9, 9, 9, 9, 6, 0]));
}

#[test]
fn f_leaves_the_gaps() {
    let tensor = plane(&[2, 2]);
    let config = default(&tensor).with_dst_stride([3, 1, 0, 0]);
    assert_eq!(moved(&tensor, &config, &count_up(4), &[7; 5]).1, [1, 2, 7, 3, 4]);
    assert_eq!(moved(&tensor, &config, &count_up(4), &[7; 4]), (refused(13, 0), vec![7; 4]));
    let f = Stretched { tensor, config, source: count_up(4), destination: vec![7; 5] };
    assert_eq!(f.at(0, 4), (4, vec![1, 2, 7, 3, 4]));
    assert_eq!(f.at(1, 2), (2, vec![7, 2, 7, 3, 7]));
}

#[test]
fn g_pads_by_source_dimension() {
    let tensor = plane(&[1, 2]);
    let config = default(&tensor).with_pre([1, 0, 0, 0]).with_perm([1, 0, 0, 0]);
    assert_eq!(moved(&tensor, &config, &[5, 6], &[9; 4]).1, [0, 5, 0, 6]);
    let g = Stretched { tensor, config, source: vec![5, 6], destination: vec![9; 4] };
    assert_eq!(g.at(0, 4), (4, vec![0, 5, 0, 6]));
    assert_eq!(g.at(1, 2), (2, vec![9, 5, 0, 9]));
}

#[test]
fn the_line_of_the_page() {
    // Example A as CALLS.md has it, with this engine's number.
    let zeros = "00".repeat(16);
    let call = format!(
        "26020102000000030000000000000000000000{zeros}{zeros}{zeros}01000000010000000000000000000000{zeros}{zeros}\
         0100000000000000000000000000000006000000010203040506000000000000\n"
    );
    let expected = "26000002010300000002000000000000000000000002000000010000000000000000000000\
                    0600000000000000010402050306";
    let got = answers(&Calls::all(), call.as_bytes());
    assert_eq!(got.iter().map(|line| hex(line)).collect::<Vec<_>>(), [expected.as_bytes()]);
}

#[test]
fn a_stretch_from_mid_row_to_mid_row() {
    // Rows of four: 0..3, 4..7, 8..11.
    let tensor = plane(&[3, 4]);
    let rows = Stretched { tensor, config: default(&tensor), source: count_up(12), destination: vec![99; 12] };
    assert_eq!(rows.at(2, 8), (8, vec![99, 99, 3, 4, 5, 6, 7, 8, 9, 10, 99, 99]));
    assert_eq!(rows.at(5, 2), (2, vec![99, 99, 99, 99, 99, 6, 7, 99, 99, 99, 99, 99]));
    // Nothing is moved, or no more than is left.
    let untouched = (0, vec![99; 12]);
    assert_eq!(
        (rows.at(5, 0), rows.at(12, 1), rows.at(u64::MAX, u64::MAX)),
        (untouched.clone(), untouched.clone(), untouched)
    );
    assert_eq!(rows.at(11, u64::MAX), (1, vec![99, 99, 99, 99, 99, 99, 99, 99, 99, 99, 99, 12]));
}

#[test]
fn padding_of_an_outer_dimension_reaches_in() {
    // Two layers of two rows of three; all but two elements of the last row are padding.
    let tensor = plane(&[1, 1, 2]);
    let config = default(&tensor).with_pre(four(&[1, 1, 0])).with_post(four(&[0, 0, 1])).with_fill(7);
    let whole = [7, 7, 7, 7, 7, 7, 7, 7, 7, 5, 6, 7];
    assert_eq!(moved(&tensor, &config, &[5, 6], &[9; 12]).1, whole);
    let layers = Stretched { tensor, config, source: vec![5, 6], destination: vec![9; 12] };
    assert_eq!(layers.at(4, 6), (6, vec![9, 9, 9, 9, 7, 7, 7, 7, 7, 5, 9, 9]));
    // D with elements of two bytes and a fill.
    let tensor = Tensor { element_size: 2, ..plane(&[1, 2]) };
    let config = default(&tensor).with_pre(four(&[1, 0])).with_post(four(&[0, 1])).with_fill(0x0403_0201);
    let d = Stretched { tensor, config, source: vec![5, 6, 7, 8], destination: vec![9; 12] };
    assert_eq!(d.at(2, 2), (2, vec![9, 9, 9, 9, 1, 2, 5, 6, 9, 9, 9, 9]));
}

#[test]
fn refusals() {
    let tensor = plane(&[2, 2]);
    let config = default(&tensor);
    let five = Tensor { element_size: 5, ..tensor };
    assert_eq!(moved(&five, &config, &count_up(4), &[7; 4]), (refused(2, 0), vec![7; 4]));
    assert_eq!(moved(&tensor, &config, &count_up(3), &[7; 4]), (refused(5, 0), vec![7; 4]));
    let turned = config.with_perm([0, 0, 0, 0]);
    assert_eq!(moved(&tensor, &turned, &count_up(4), &[7; 4]), (refused(6, 1), vec![7; 4]));
    let good = Stretched { tensor, config, source: count_up(4), destination: vec![7; 4] };
    let at = |source: Part, destination: Part, config: Config| -> Advanced {
        let job = Job { source, destination, tensor, config };
        answer(0x27, bytes_of(&(job, 0u64, 9u64, Memory(good.memory()))))
    };
    let part = |start: u64, length: u64| Part { start, length };
    let refused = |status: u8, dimension: u8| Advanced { status, dimension, count: 0, memory: Memory(good.memory()) };
    assert_eq!(at(part(0, 4), part(5, 4), config), refused(20, 0));
    assert_eq!(at(part(0, 4), part(4, 3), config), refused(13, 0));
    assert_eq!(at(part(0, 4), part(4, 4), turned), refused(6, 1));
    assert_eq!(at(part(0, 4), part(3, 4), config), refused(21, 0));
}

#[test]
fn wrong_lengths() {
    let answer_to = |number: u8, arguments: Vec<u8>| {
        let line = [hex(&[number]), hex(&arguments), b"\n".to_vec()].concat();
        answers(&Calls::all(), &line)[0].clone()
    };
    let (tensor, config) = (plane(&[1]), default(&plane(&[1])));
    let with = |count: u32, rest: usize| [bytes_of(&(tensor, config, count)), vec![0; rest]].concat();
    assert_eq!(answer_to(0x26, with(2, 1)), [0xff, 4]);
    assert_eq!(answer_to(0x26, with(u32::MAX, 1)), [0xff, 4]);
    assert_eq!(answer_to(0x26, with(1, 2 + MEMORY_LIMIT)), [0xff, 4]);
    assert_eq!(answer_to(0x26, with(1, 1 + MEMORY_LIMIT))[..2], [0x26, 0]);
    let stretch = |length: usize| bytes_of(&(Job::default(), 0u64, 0u64, Memory(vec![0; length])));
    assert_eq!(answer_to(0x27, stretch(MEMORY_LIMIT + 1)), [0xff, 4]);
    assert_eq!(answer_to(0x27, stretch(MEMORY_LIMIT))[..2], [0x27, 1]);
    assert_eq!(answer_to(0x27, vec![0; 177]), [0xff, 4]);
}

/// All cases that a call with these arguments is.
fn cases_met(number: u8, arguments: &[u8], answer: &[u8]) -> Vec<String> {
    let bytes = [&[number], arguments].concat();
    let met = [sizes::met, offsets::met, stretches::met, fills::met];
    met.iter().flat_map(|met| met(&bytes, answer)).collect()
}

/// The arguments of the calls of this number in a run, those of a wrong length too.
fn drawn(number: u8) -> Vec<Vec<u8>> {
    let input = generate::calls(12_000, 4);
    let lines = input.split(|&character| character == b'\n').filter_map(|line| unhex(line).ok());
    lines.filter_map(|bytes| bytes.strip_prefix(&[number]).map(<[u8]>::to_vec)).collect()
}

#[test]
fn both_readings_give_the_same_bytes() {
    let calls = Calls::all();
    let answered = |number: u8, arguments: &[u8]| (calls.find(number).unwrap().answer)(arguments);
    for [first, plain] in [MOVE, ADVANCE] {
        let mut accepted = 0;
        for arguments in drawn(first) {
            match (answered(first, &arguments), answered(plain, &arguments)) {
                (Some(a), Some(b)) => {
                    assert_eq!((a[0], b[0]), (first, plain));
                    assert_eq!(a[1..], b[1..]);
                    assert_eq!(cases_met(first, &arguments, &a), cases_met(plain, &arguments, &b));
                    accepted += (a[1] == 0) as usize;
                }
                (a, b) => assert_eq!((a, b), (None, None)),
            }
        }
        assert!(accepted > 300);
    }
}

#[test]
fn every_stretch_is_the_same_by_both() {
    // Turned and padded, with gaps between rows: 2 x 3 x 4 elements of two bytes.
    let tensor = Tensor { element_size: 2, ..plane(&[2, 3, 2]) };
    let config = default(&tensor).with_perm(four(&[2, 0, 1])).with_pre(four(&[1])).with_post(four(&[0, 1]));
    let config = config.with_dst_stride(four(&[0, 5, 1])).with_fill(0x0403_0201);
    let all = Stretched { tensor, config, source: count_up(24), destination: vec![99; 58] };
    for from in 0..=25 {
        for budget in 0..=25 {
            let advanced = plain::advance(&all.job(), from, budget, all.memory());
            assert_eq!((advanced.status, advanced.count), (0, budget.min(24u64.saturating_sub(from))));
            assert_eq!(advanced, job::advance(&all.job(), from, budget, all.memory()));
        }
    }
}

#[test]
fn both_engines_have_the_same_to_meet() {
    let missing = Coverage::new(&Calls::all()).missing();
    let of = |call: &str| -> Vec<&str> { missing.iter().filter_map(|case| case.strip_prefix(call)).collect() };
    let (whole, stretch) = (of("20 move_plane: "), of("22 advance: "));
    assert!(whole.contains(&"row full at 3") && stretch.contains(&"ends in mid-row"));
    assert_eq!((whole, stretch), (of("26 plain::move_plane: "), of("27 plain::advance: ")));
}
