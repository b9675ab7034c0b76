//! The cases of signed strides: the ends of their range, what 4 refuses of them, planes that count down in some
//! dimensions or in all, moved whole and in part, sub-tensors of such planes, words of records, and slots. Numbers alone
//! do not tell them apart, and a long comparison has to meet each.

use super::case::{case, holding, named, Case};
use super::input::{counts_down, is_mirrored, rank_of, tensor_of, LEAST};
use super::number::{
    is_move, is_stretch, ADVANCE, APPEND, FIELDS_FAULT, GIVE_BACK, JUDGE, JUDGE_JOB, MOVER_SUB_TENSOR, MOVE_PLANE,
    PLAIN_ADVANCE, PLAIN_MOVE, POLL, PREPARE, READ, RECORD_AT, RELEASE, START, STEP, SUB_PART, SUB_TENSOR, WRITE,
};
use super::piece::Piece;
use crate::helpers::{sub_tensor, SubConfig};
use crate::job::Job;
use crate::list::{record_bytes, record_count};
use crate::moves::Config;
use crate::record::{has_entry, unpack, LENGTH, LENGTH_WITH_FILL};
use crate::tensor::{check_tensor, inner_product, source_of, Fault, Tensor};
use crate::transfers::{sound, Table, FREE};
use crate::wire::{begin, Rest};

/// The strides of the largest size that is not above the limit.
pub const LARGEST: [i32; 2] = [i32::MAX, -i32::MAX];

/// All cases of the call of this number.
pub fn cases(number: u8) -> Vec<String> {
    named(&all(number, &[], &[]))
}

/// The cases that a call with these bytes is, by what it has to be answered.
pub fn met(bytes: &[u8], expected: &[u8]) -> Vec<String> {
    match (bytes, expected) {
        ([number, arguments @ ..], [_, answer @ ..]) => holding(&all(*number, arguments, answer)),
        _ => Vec::new(),
    }
}

/// Each case of the call of this number, and whether it is one with these arguments and this answer. The names are the
/// same for any.
fn all(number: u8, arguments: &[u8], answer: &[u8]) -> Vec<Case> {
    let status: u8 = begin(answer);
    let mut all = Vec::new();
    if let Some(tensor) = tensor_of(number, arguments) {
        all.extend(of_tensor(&tensor, status));
        all.extend(source_length(number, arguments).map_or(Vec::new(), |source| of_length(&tensor, source, status)));
    }
    if is_move(number) || is_stretch(number) {
        let piece = if status == 0 { Piece::of_call(number, arguments) } else { None };
        all.extend(of_piece(piece.as_ref()));
    }
    if [SUB_TENSOR, SUB_PART, MOVER_SUB_TENSOR].contains(&number) {
        let (tensor, config) = begin(arguments);
        all.extend(of_sub_tensor(&tensor, &config, source_length(number, arguments).unwrap_or_default()));
    }
    if [PREPARE, START, STEP, RELEASE, POLL, GIVE_BACK].contains(&number) {
        all.extend(of_table(&begin(arguments), status));
    }
    all.extend(match number {
        START | STEP | RELEASE | POLL => of_slot(begin(arguments), status),
        READ => of_fields(&fields_in(arguments), status),
        WRITE | APPEND => of_fields(&begin(arguments), status),
        FIELDS_FAULT => {
            let (_, tensor, config): (u16, Tensor, Config) = begin(arguments);
            of_fields(&(tensor, config), status)
        }
        RECORD_AT => of_record_at(begin(arguments), begin(answer)),
        _ => Vec::new(),
    });
    all
}

/// How many bytes are lent as source, if the call says so.
fn source_length(number: u8, arguments: &[u8]) -> Option<u64> {
    match number {
        JUDGE => Some(begin::<(Tensor, Config, u64)>(arguments).2),
        SUB_TENSOR => Some(begin::<(Tensor, SubConfig, u64)>(arguments).2),
        SUB_PART | MOVER_SUB_TENSOR => Some(begin::<(Tensor, SubConfig, Rest)>(arguments).2 .0.len() as u64),
        MOVE_PLANE | PLAIN_MOVE => Some(begin::<(Tensor, Config, u32)>(arguments).2 as u64),
        JUDGE_JOB => Some(begin::<(u64, Job)>(arguments).1.source.length),
        ADVANCE | PLAIN_ADVANCE => Some(begin::<Job>(arguments).source.length),
        PREPARE => Some(begin::<(Table, Job)>(arguments).1.source.length),
        _ => None,
    }
}

/// "4 now covers sizes below the inner product or above 2,147,483,647, so also -2,147,483,648", at each dimension; and
/// strides of the largest size, which only the first dimension and those of shape 1 can have.
fn of_tensor(tensor: &Tensor, status: u8) -> Vec<Case> {
    let named = check_tensor(tensor).err().filter(|fault| status == 4 && fault.status == 4);
    let mut all = vec![
        case(status == 0 && is_mirrored(tensor), "counts down"),
        case(status == 3 && tensor.stride[..rank_of(tensor)].contains(&LEAST), "3 and 4 by -2147483648"),
    ];
    for d in 0..4 {
        let stride = tensor.stride[d];
        let is_named = named == Some(Fault { status: 4, dimension: d as u8 });
        all.push((is_named && stride == LEAST, format!("4 by -2147483648 at {d}")));
        for of in LARGEST {
            let holds = status == 0 && d < rank_of(tensor) && stride == of;
            all.push((holds, format!("{of} at {d}")));
        }
        // The last dimension has 1 for its inner product, which no size but that of 0 is below.
        if d < 3 {
            all.push((is_named && stride < 0 && stride != LEAST, format!("4 below the inner product at {d}")));
            for of in LARGEST {
                let holds = is_named && d + 1 < rank_of(tensor) && tensor.stride[d + 1] == of;
                all.push((holds, format!("4 at {d} outside {of}")));
            }
        }
    }
    all
}

/// "so spans don't change": 5 of a plane that counts down, by a byte; and 4 where no byte is lent, which 5 refuses too.
fn of_length(tensor: &Tensor, source: u64, status: u8) -> Vec<Case> {
    let short = status == 5 && is_mirrored(tensor) && source + 1 == source_of(tensor).span;
    let by_sign = check_tensor(tensor).is_err_and(|fault| tensor.stride[fault.dimension as usize & 3] < 0);
    vec![
        case(short, "5 by a byte of a plane that counts down"),
        case(status == 4 && by_sign && source == 0, "4 by a negative stride and 5"),
    ]
}

/// What a stride says of its dimension.
fn sign(stride: i32) -> &'static str {
    match stride {
        0 => "zero",
        1.. => "positive",
        _ => "negative",
    }
}

/// The signs of two neighbouring dimensions, the outer one first.
const NEIGHBOURS: [(&str, &str); 5] = [
    ("negative", "negative"),
    ("negative", "zero"),
    ("negative", "positive"),
    ("zero", "negative"),
    ("positive", "negative"),
];

/// Several elements of an accepted move: how many dimensions of its plane count down, what stands beside those, and what
/// is done with them.
fn of_piece(piece: Option<&Piece>) -> Vec<Case> {
    let piece = piece.filter(|piece| piece.end - piece.first > 1);
    let tensor = piece.map_or(Tensor::default(), |piece| piece.tensor);
    let rank = rank_of(&tensor);
    let has_units = tensor.shape[..rank].contains(&1);
    let down = (0..rank).filter(|&d| counts_down(&tensor, d)).count();
    let mut all = Vec::new();
    for of in 1..=4 {
        for count in 1..=of {
            let holds = (down, rank) == (count, of) && !has_units;
            all.push((holds, format!("{count} of {of} dimensions count down")));
        }
    }
    for (outer, inner) in NEIGHBOURS {
        let beside = |d: usize| (sign(tensor.stride[d - 1]), sign(tensor.stride[d])) == (outer, inner);
        let holds = (1..rank).any(|d| beside(d) && tensor.shape[d - 1] > 1 && tensor.shape[d] > 1);
        all.push((holds, format!("{outer} around {inner}")));
    }
    let of_unit = (0..rank).any(|d| tensor.stride[d] < 0 && tensor.shape[d] == 1);
    all.push(case(of_unit, "negative stride of shape 1"));
    all.extend(of_dimensions(piece));
    all
}

/// What is done with a dimension that counts down.
fn of_dimensions(piece: Option<&Piece>) -> Vec<Case> {
    let any = |holds: &dyn Fn(&Piece, usize) -> bool| {
        piece.is_some_and(|piece| (0..piece.plan.rank).any(|s| counts_down(&piece.tensor, s) && holds(piece, s)))
    };
    let cut = |before: bool, behind: bool| {
        any(&|piece, s| cut_at(piece.tensor.shape[s], piece.config.offset[s], piece.config.size[s]) == (before, behind))
    };
    let has_gap = |piece: &Piece, s: usize| {
        let resolved = piece.plan.source_stride.map(i64::unsigned_abs);
        resolved[s] > inner_product(piece.plan.rank, s, &resolved, &piece.plan.shape)
    };
    vec![
        case(cut(true, false), "cut before, counting down"),
        case(cut(false, true), "cut behind, counting down"),
        case(cut(true, true), "cut on both sides, counting down"),
        case(any(&|piece, s| piece.config.step[s] > 1 && piece.plan.count[s] > 1), "thinned, counting down"),
        case(any(&|piece, s| piece.config.perm[s] as usize != s), "permuted, counting down"),
        case(any(&|piece, s| piece.config.pre[s] > 0), "padded before, counting down"),
        case(any(&|piece, s| piece.config.post[s] > 0), "padded behind, counting down"),
        case(any(&has_gap), "with gaps, counting down"),
    ]
}

/// Whether offset and size leave something out before and behind. A size of 0 goes to the end.
fn cut_at(shape: u32, offset: u32, size: u32) -> (bool, bool) {
    (offset > 0, size > 0 && offset as u64 + (size as u64) < shape as u64)
}

/// "A sub-tensor starts at its own lowest element and keeps the signs." A part by itself has no number, so that it is
/// asked for here.
fn of_sub_tensor(tensor: &Tensor, config: &SubConfig, source: u64) -> Vec<Case> {
    let accepted = sub_tensor(tensor, config, source).status == 0;
    let rank = if accepted { rank_of(tensor) } else { 0 };
    let down = |d: usize| counts_down(tensor, d);
    let cut = |before: bool, behind: bool| {
        (0..rank).any(|d| down(d) && cut_at(tensor.shape[d], config.offset[d], config.size[d]) == (before, behind))
    };
    let units: Vec<usize> = (0..rank).filter(|&d| config.size[d] == 1).collect();
    let (removed, kept) = units.split_at(rank.saturating_sub(config.rank as usize).min(units.len()));
    let zero_beside = |d: usize| tensor.stride[d] == 0 && config.size[d] > 1 && is_mirrored(tensor);
    vec![
        case(cut(true, false), "sub-tensor cut before, counting down"),
        case(cut(false, true), "sub-tensor cut behind, counting down"),
        case(cut(true, true), "sub-tensor cut on both sides, counting down"),
        case(removed.iter().any(|&d| down(d)), "unit dimension removed, counting down"),
        case(kept.iter().any(|&d| down(d)), "unit dimension kept, counting down"),
        case((0..rank).any(zero_beside), "stride 0 beside one that counts down"),
        case(rank > 1 && (0..rank).all(down), "sub-tensor of a plane that counts down throughout"),
    ]
}

/// "every other slot passes 20, 1 to 13": nothing but the least number is wrong with this table.
fn of_table(table: &Table, status: u8) -> Vec<Case> {
    let mut without = *table;
    for slot in without.slot.iter_mut().filter(|slot| slot.state != FREE) {
        slot.job.tensor.stride = slot.job.tensor.stride.map(|stride| if stride == LEAST { 0 } else { stride });
    }
    vec![case(status == 18 && sound(&without), "18 by -2147483648 of a slot")]
}

/// A slot whose plane counts down.
fn of_slot((table, handle): (Table, u32), status: u8) -> Vec<Case> {
    let tensor = table.slot.get(handle as usize).map_or(Tensor::default(), |slot| slot.job.tensor);
    vec![case(status == 0 && is_mirrored(&tensor), "slot that counts down")]
}

/// The fields of a record that is as long as one.
fn fields_in(bytes: &[u8]) -> (Tensor, Config) {
    match bytes.len() {
        LENGTH | LENGTH_WITH_FILL => unpack(bytes),
        _ => Default::default(),
    }
}

/// "words that 4 refused now mean negative strides": a record takes each of them, and past the rank none.
fn of_fields((tensor, config): &(Tensor, Config), status: u8) -> Vec<Case> {
    let (below, past) = tensor.stride.split_at(rank_of(tensor));
    let without = Tensor { stride: [0; 4], ..*tensor };
    let others = (rank_of(tensor)..4).any(|d| has_entry(&without, config, d));
    let mut all = Vec::new();
    for of in [LEAST, LARGEST[1], -1, LARGEST[0]] {
        all.push((status == 0 && below.contains(&of), format!("stride {of}")));
    }
    let alone = status == 28 && !others && past.iter().any(|&stride| stride < 0);
    all.push(case(alone, "28 by a negative stride past the rank"));
    all
}

/// The record of a list. The answer begins with its number and its status.
fn of_record_at((k, list): (u64, Rest), (_, status): (u64, u8)) -> Vec<Case> {
    let there = k < record_count(&list.0);
    let fields = if there { unpack(record_bytes(&list.0, k)) } else { Default::default() };
    of_fields(&fields, status)
}
