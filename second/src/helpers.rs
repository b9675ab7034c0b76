//! The helpers: element size, element count, sub-tensor.

use crate::tensor::{
    above_lowest, check_rank, check_shapes, check_tensor, refuse, refuse_lowest, span, with_signs, Fault, Tensor,
    ELEMENT_SIZES,
};
use crate::wire::wire_struct;

wire_struct! {
    #[derive(Copy)]
    Count { status: u8, dimension: u8, count: u64 }
}

wire_struct! {
    /// "Sub-tensor: offsets, sizes (0 is refused here) and a rank."
    #[derive(Copy)]
    SubConfig { offset: [u32; 4], size: [u32; 4], rank: u32 }
}

wire_struct! {
    #[derive(Copy)]
    SubTensor { status: u8, dimension: u8, tensor: Tensor, byte: u64 }
}

/// "Element size: 1, 2, 4, or 0 for others." "The element size helper answers 3 for 3."
pub fn element_size(size: u8) -> u8 {
    if ELEMENT_SIZES.contains(&size) {
        size
    } else {
        0
    }
}

/// "Element count from a start dimension: a 64-bit product of shapes."
pub fn element_count(tensor: &Tensor, start: u32) -> Count {
    match count_from(tensor, start) {
        Ok(count) => Count { status: 0, dimension: 0, count },
        Err(fault) => Count { status: fault.status, dimension: fault.dimension, count: 0 },
    }
}

/// "count is then 1, 3, 16". Every shape below the rank is looked at, also those before the start.
fn count_from(tensor: &Tensor, start: u32) -> Result<u64, Fault> {
    let rank = check_rank(tensor.rank)?;
    check_shapes(tensor, rank)?;
    // 16: "start dimension not below rank"
    if start as u64 >= rank as u64 {
        return refuse(16, 0);
    }
    // "Four shapes of 65,535 multiply to 18,445,618,199,572,250,625, which fits."
    Ok(tensor.shape[start as usize..rank].iter().map(|&shape| shape as u64).product())
}

/// The call `sub_tensor`: the record of the sub-tensor and its byte offset.
pub fn sub_tensor(tensor: &Tensor, config: &SubConfig, source: u64) -> SubTensor {
    match point(tensor, config, source) {
        Ok((tensor, byte)) => SubTensor { status: 0, dimension: 0, tensor, byte },
        Err(fault) => SubTensor { status: fault.status, dimension: fault.dimension, ..SubTensor::default() },
    }
}

/// The call `sub_part`: "a second call hands back the lent source from that byte to its end"; "a refused sub-tensor
/// hands back an empty part".
pub fn sub_part<'a>(tensor: &Tensor, config: &SubConfig, source: &'a [u8]) -> &'a [u8] {
    match point(tensor, config, source.len() as u64) {
        Ok((_, byte)) => &source[byte as usize..],
        Err(_) => &[],
    }
}

/// "Sub-tensor: 1 to 5, 7, 8, 14, 15."
fn point(tensor: &Tensor, config: &SubConfig, source: u64) -> Result<(Tensor, u64), Fault> {
    let resolved = check_tensor(tensor)?;
    let rank = tensor.rank as usize;
    if source < span(tensor, &resolved) {
        return refuse(5, 0);
    }
    refuse_lowest(7, rank, |d| config.offset[d] >= tensor.shape[d])?;
    // 8: "size + offset above shape (sub-tensor: or size 0)"
    refuse_lowest(8, rank, |d| {
        config.size[d] == 0 || config.size[d] as u64 + config.offset[d] as u64 > tensor.shape[d] as u64
    })?;
    // 14: "sub-tensor rank 0 or above the rank"
    if config.rank == 0 || config.rank as u64 > rank as u64 {
        return refuse(14, 0);
    }
    // 15: "too few unit dimensions", by size
    let units = config.size[..rank].iter().filter(|&&size| size == 1).count();
    if units < rank - config.rank as usize {
        return refuse(15, 0);
    }
    let stride = with_signs(tensor, &resolved);
    let byte = lowest_element(tensor, config, &stride) * tensor.element_size as u64;
    Ok((without_units(tensor, config, &stride.map(narrow)), byte))
}

/// "A sub-tensor starts at its own lowest element": in each dimension at its first coordinate or at its last, whichever
/// lies lower.
fn lowest_element(tensor: &Tensor, config: &SubConfig, stride: &[i64; 4]) -> u64 {
    let mut place = 0;
    for d in 0..tensor.rank as usize {
        let at = |x: u64| above_lowest(tensor.shape[d] as u64, stride[d], x);
        let (first, count) = (config.offset[d] as u64, config.size[d] as u64);
        place += at(first).min(at(first + count - 1));
    }
    place
}

/// For a resolved stride, which its limit keeps within 32 bits.
fn narrow(stride: i64) -> i32 {
    i32::try_from(stride).expect("a limit keeps this within 32 bits")
}

/// "Output shape is the sizes; output strides are the resolved input strides; unit dimensions, with their strides, are
/// removed from the first on until the rank is reached; entries past it are 0." "A sub-tensor ... keeps the signs."
fn without_units(tensor: &Tensor, config: &SubConfig, resolved: &[i32; 4]) -> Tensor {
    let mut left: Vec<(u32, i32)> = Vec::new();
    for d in 0..tensor.rank as usize {
        left.push((config.size[d], resolved[d]));
    }
    while left.len() > config.rank as usize {
        let first = left.iter().position(|&(size, _)| size == 1).expect("15 has counted them");
        left.remove(first);
    }
    let mut out = Tensor { rank: config.rank as u8, element_size: tensor.element_size, ..Tensor::default() };
    for (d, &(size, stride)) in left.iter().enumerate() {
        out.shape[d] = size;
        out.stride[d] = stride;
    }
    out
}
