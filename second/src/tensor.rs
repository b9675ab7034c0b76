//! Tensor records: what the paper says under "Planes and strides".

use crate::wire::wire_struct;

wire_struct! {
    /// "A tensor record has a rank, an element size in bytes, and four shapes and four strides, in elements." "Source
    /// strides become signed 32-bit numbers."
    #[derive(Copy)]
    Tensor { rank: u8, element_size: u8, shape: [u32; 4], stride: [i32; 4] }
}

wire_struct! {
    /// A number of refusal and the dimension it names.
    #[derive(Copy)]
    Fault { status: u8, dimension: u8 }
}

wire_struct! {
    /// What a tensor record comes to by itself. CALLS: "sizes of the resolved strides".
    #[derive(Copy)]
    Source { status: u8, dimension: u8, stride: [u32; 4], span: u64 }
}

/// All element sizes that there are: "Element size 1, 2 or 4", and 3, which "2 no longer covers". The rule, the helper,
/// cases and draws go by this list.
pub const ELEMENT_SIZES: [u8; 4] = [1, 2, 3, 4];
/// "Shape entries 1 to 65,535"; destination offsets, steps and extents have the same limit.
pub const EXTENT_LIMIT: u64 = 65_535;
/// The limit of strides and of a table's memory.
pub const LIMIT: u64 = 2_147_483_647;

/// A refusal that names a dimension, or 0 where there is none to name.
pub fn refuse<T>(status: u8, dimension: usize) -> Result<T, Fault> {
    Err(Fault { status, dimension: dimension as u8 })
}

/// The lowest dimension below the rank at which `wrong` holds is refused by that number.
pub fn refuse_lowest(status: u8, rank: usize, wrong: impl Fn(usize) -> bool) -> Result<(), Fault> {
    for d in 0..rank {
        if wrong(d) {
            return refuse(status, d);
        }
    }
    Ok(())
}

/// 1: "Rank 1 to 4."
pub fn check_rank(rank: u8) -> Result<usize, Fault> {
    if !(1..=4).contains(&rank) {
        return refuse(1, 0);
    }
    Ok(rank as usize)
}

/// 2: "Element size 1, 2 or 4." "2 no longer covers 3."
pub fn check_element_size(element_size: u8) -> Result<(), Fault> {
    if !ELEMENT_SIZES.contains(&element_size) {
        return refuse(2, 0);
    }
    Ok(())
}

/// 3: "Shape entries 1 to 65,535."
pub fn check_shapes(tensor: &Tensor, rank: usize) -> Result<(), Fault> {
    refuse_lowest(3, rank, |d| tensor.shape[d] < 1 || tensor.shape[d] as u64 > EXTENT_LIMIT)
}

/// "The inner product of dimension d is 1 for the last, else (resolved stride of d+1) x (shape of d+1)."
pub fn inner_product(rank: usize, d: usize, resolved: &[u64; 4], shape: &[u64; 4]) -> u64 {
    if d == rank - 1 {
        1
    } else {
        resolved[d + 1] * shape[d + 1]
    }
}

/// "Strides are resolved from the last dimension outward." "Stride 0 means the inner product." What is refused is named
/// by `status`, "the first one met outward". Past the rank the strides are 0.
pub fn resolve_strides(status: u8, rank: usize, shape: &[u64; 4], stride: &[u32; 4]) -> Result<[u64; 4], Fault> {
    let mut resolved = [0u64; 4];
    for d in (0..rank).rev() {
        let inner_product = inner_product(rank, d, &resolved, shape);
        resolved[d] = if stride[d] == 0 { inner_product } else { stride[d] as u64 };
        // "A resolved stride below its inner product or above 2,147,483,647 is refused."
        if resolved[d] < inner_product || resolved[d] > LIMIT {
            return refuse(status, d);
        }
    }
    Ok(resolved)
}

/// The numbers 1 to 4 of a tensor record; the sizes of the resolved strides if there is none. "The sizes of the strides,
/// signs dropped, follow 01's rule"; that of -2,147,483,648 is above the limit.
pub fn check_tensor(tensor: &Tensor) -> Result<[u64; 4], Fault> {
    let rank = check_rank(tensor.rank)?;
    check_element_size(tensor.element_size)?;
    check_shapes(tensor, rank)?;
    resolve_strides(4, rank, &wide(&tensor.shape), &tensor.stride.map(i32::unsigned_abs))
}

/// The resolved strides of these sizes with the signs of the written ones: "a stride of 0 resolves to a positive one".
pub fn with_signs(tensor: &Tensor, resolved: &[u64; 4]) -> [i64; 4] {
    let mut signed = [0; 4];
    for d in 0..4 {
        signed[d] = resolved[d] as i64 * if tensor.stride[d] < 0 { -1 } else { 1 };
    }
    signed
}

/// How many elements a coordinate lies above the lowest one that its dimension has: "A negative dimension counts down:
/// its coordinate x lies (shape - 1 - x) x size of the stride up from there." Any other counts up.
pub fn above_lowest(shape: u64, stride: i64, x: u64) -> u64 {
    let strides = if stride < 0 { shape - 1 - x } else { x };
    strides * stride.unsigned_abs()
}

/// "Span in bytes: (1 + sum of (shape-1) x stride) x element size", by sizes: "spans don't change". For a tensor that
/// passed 1 to 4.
pub fn span(tensor: &Tensor, resolved: &[u64; 4]) -> u64 {
    let mut elements = 1;
    for d in 0..tensor.rank as usize {
        elements += (tensor.shape[d] as u64 - 1) * resolved[d];
    }
    elements * tensor.element_size as u64
}

/// The call `source_of`.
pub fn source_of(tensor: &Tensor) -> Source {
    match check_tensor(tensor) {
        Ok(resolved) => Source { status: 0, dimension: 0, stride: narrow(&resolved), span: span(tensor, &resolved) },
        Err(fault) => Source { status: fault.status, dimension: fault.dimension, ..Source::default() },
    }
}

pub fn wide(entries: &[u32; 4]) -> [u64; 4] {
    entries.map(|entry| entry as u64)
}

/// For resolved strides and extents, which their limits keep within 32 bits.
pub fn narrow(entries: &[u64; 4]) -> [u32; 4] {
    entries.map(|entry| u32::try_from(entry).expect("a limit keeps this within 32 bits"))
}
