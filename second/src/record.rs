//! The move record: a tensor record and a configuration in 131 bytes, or in 135 where there is a fill.

use crate::moves::Config;
use crate::tensor::{check_element_size, check_rank, refuse, Fault, Tensor};
use crate::wire::wire_struct;

wire_struct! {
    /// What reading a record comes to.
    #[derive(Copy)]
    Reading { status: u8, dimension: u8, tensor: Tensor, config: Config }
}

/// Version 1 has 131 bytes.
pub const LENGTH: usize = 131;
pub const VERSION: u16 = 1;
/// "Record version 2 is version 1 plus those 4 bytes at the end, 135 in all."
pub const LENGTH_WITH_FILL: usize = 135;
pub const VERSION_WITH_FILL: u16 = 2;
pub const MARK: &[u8; 3] = b"RMV";

/// At which byte of the record each thing starts: "mark `RMV`, 16-bit version 1, rank byte, element size byte; then
/// seven groups of four 32-bit numbers (shape, stride, offset, size, step, destination offset, destination stride);
/// then four bytes each of permutation, pre, post"; in version 2 the fill "at the end". Nothing here follows from the
/// order of fields anywhere else.
pub mod at {
    pub const MARK: usize = 0;
    pub const VERSION: usize = 3;
    pub const RANK: usize = 5;
    pub const ELEMENT_SIZE: usize = 6;
    pub const SHAPE: usize = 7;
    pub const STRIDE: usize = 23;
    pub const OFFSET: usize = 39;
    pub const SIZE: usize = 55;
    pub const STEP: usize = 71;
    pub const DST_OFFSET: usize = 87;
    pub const DST_STRIDE: usize = 103;
    pub const PERM: usize = 119;
    pub const PRE: usize = 123;
    pub const POST: usize = 127;
    pub const FILL: usize = 131;
}

/// How long a record of this version is: "131 if that isn't 2".
fn length_of(version: u16) -> usize {
    if version == VERSION_WITH_FILL {
        LENGTH_WITH_FILL
    } else {
        LENGTH
    }
}

/// The version that these bytes tell, little endian, if there are enough of them.
pub fn version_in(bytes: &[u8]) -> Option<u16> {
    Some(u16::from_le_bytes(bytes.get(at::VERSION..at::RANK)?.try_into().ok()?))
}

/// The call `length_in`: how long a record is that begins with these bytes. CALLS: "135 if there are at least 5 and
/// their version is 2, else 131". No other byte is looked at.
pub fn length_in(bytes: &[u8]) -> usize {
    version_in(bytes).map_or(LENGTH, length_of)
}

/// "fill 0 is always written as version 1", and any other as version 2.
pub fn version_for(config: &Config) -> u16 {
    if config.fill == 0 {
        VERSION
    } else {
        VERSION_WITH_FILL
    }
}

/// The call `length_for`: how long the record of this configuration is.
pub fn length_for(config: &Config) -> usize {
    length_of(version_for(config))
}

/// The call `read`. "25 for a length that is neither, 26, 27 where the version isn't that length's", then the fields.
pub fn read(bytes: &[u8]) -> Reading {
    match fields(bytes) {
        Ok((tensor, config)) => Reading { status: 0, dimension: 0, tensor, config },
        Err(fault) => Reading { status: fault.status, dimension: fault.dimension, ..Reading::default() },
    }
}

fn fields(bytes: &[u8]) -> Result<(Tensor, Config), Fault> {
    let version = match bytes.len() {
        LENGTH => VERSION,
        LENGTH_WITH_FILL => VERSION_WITH_FILL,
        // 25: "a length that is neither"
        _ => return refuse(25, 0),
    };
    // 26: "mark `RMV`"
    if bytes[at::MARK..at::MARK + 3] != *MARK {
        return refuse(26, 0);
    }
    // 27: "where the version isn't that length's"
    if version_in(bytes) != Some(version) {
        return refuse(27, 0);
    }
    let (tensor, config) = unpack(bytes);
    check_fields(version, &tensor, &config)?;
    Ok((tensor, config))
}

/// The call `write`. "Write does the same, 25 being a room not of the version written." A refused one leaves the room
/// as it was.
pub fn write(tensor: &Tensor, config: &Config, room: &mut [u8]) -> Fault {
    if room.len() != length_for(config) {
        return Fault { status: 25, dimension: 0 };
    }
    let fault = fields_fault(version_for(config), tensor, config);
    if fault.status == 0 {
        room.copy_from_slice(&pack(tensor, config));
    }
    fault
}

/// The call `fields_fault`: what a record of that version refuses of its fields.
pub fn fields_fault(version: u16, tensor: &Tensor, config: &Config) -> Fault {
    check_fields(version, tensor, config).err().unwrap_or_default()
}

/// "1, then for version 2 also 2; 28, at dimension 0 and after its old cases, covers a version 2 fill of 0 or with
/// unused bytes not 0." Any other version looks at neither element size nor fill.
pub fn check_fields(version: u16, tensor: &Tensor, config: &Config) -> Result<(), Fault> {
    let with_fill = version == VERSION_WITH_FILL;
    let rank = check_rank(tensor.rank)?;
    if with_fill {
        check_element_size(tensor.element_size)?;
    }
    check_tail(rank, tensor, config)?;
    if with_fill && (config.fill == 0 || has_unused_byte(config.fill, tensor.element_size)) {
        return refuse(28, 0);
    }
    Ok(())
}

/// 28: "All entries at or past the rank are 0", the lowest dimension over all groups being named.
fn check_tail(rank: usize, tensor: &Tensor, config: &Config) -> Result<(), Fault> {
    for d in rank..4 {
        if has_entry(tensor, config, d) {
            return refuse(28, d);
        }
    }
    Ok(())
}

/// Whether a byte of the fill past the element size is not 0.
pub fn has_unused_byte(fill: u32, element_size: u8) -> bool {
    fill.to_le_bytes().iter().skip(element_size as usize).any(|&byte| byte != 0)
}

/// Whether any group has an entry in this dimension that is not 0.
pub fn has_entry(tensor: &Tensor, config: &Config, d: usize) -> bool {
    let wide = [
        tensor.shape[d],
        stride_to_word(tensor.stride[d]),
        config.offset[d],
        config.size[d],
        config.step[d],
        config.dst_offset[d],
        config.dst_stride[d],
    ];
    let bytes = [config.perm[d], config.pre[d], config.post[d]];
    wide.iter().any(|&entry| entry != 0) || bytes.iter().any(|&entry| entry != 0)
}

/// The fields of a record of 131 or 135 bytes, without a look at them.
pub fn unpack(bytes: &[u8]) -> (Tensor, Config) {
    let tensor = Tensor {
        rank: bytes[at::RANK],
        element_size: bytes[at::ELEMENT_SIZE],
        shape: numbers(bytes, at::SHAPE),
        stride: numbers(bytes, at::STRIDE).map(word_to_stride),
    };
    let config = Config {
        offset: numbers(bytes, at::OFFSET),
        size: numbers(bytes, at::SIZE),
        step: numbers(bytes, at::STEP),
        dst_offset: numbers(bytes, at::DST_OFFSET),
        dst_stride: numbers(bytes, at::DST_STRIDE),
        perm: four_bytes(bytes, at::PERM),
        pre: four_bytes(bytes, at::PRE),
        post: four_bytes(bytes, at::POST),
        fill: fill_in(bytes),
    };
    (tensor, config)
}

/// "Version 1 reads as fill 0."
fn fill_in(bytes: &[u8]) -> u32 {
    if bytes.len() == LENGTH_WITH_FILL {
        u32::from_le_bytes(four_bytes(bytes, at::FILL))
    } else {
        0
    }
}

/// The bytes of the record that is written, without a look at its fields.
pub fn pack(tensor: &Tensor, config: &Config) -> Vec<u8> {
    pack_as(version_for(config), tensor, config)
}

/// The bytes of a record of that version, whatever the fill.
pub fn pack_as(version: u16, tensor: &Tensor, config: &Config) -> Vec<u8> {
    let mut bytes = vec![0; length_of(version)];
    put(&mut bytes, at::MARK, MARK);
    put(&mut bytes, at::VERSION, &version.to_le_bytes());
    bytes[at::RANK] = tensor.rank;
    bytes[at::ELEMENT_SIZE] = tensor.element_size;
    put_numbers(&mut bytes, at::SHAPE, &tensor.shape);
    put_numbers(&mut bytes, at::STRIDE, &tensor.stride.map(stride_to_word));
    put_numbers(&mut bytes, at::OFFSET, &config.offset);
    put_numbers(&mut bytes, at::SIZE, &config.size);
    put_numbers(&mut bytes, at::STEP, &config.step);
    put_numbers(&mut bytes, at::DST_OFFSET, &config.dst_offset);
    put_numbers(&mut bytes, at::DST_STRIDE, &config.dst_stride);
    put(&mut bytes, at::PERM, &config.perm);
    put(&mut bytes, at::PRE, &config.pre);
    put(&mut bytes, at::POST, &config.post);
    if version == VERSION_WITH_FILL {
        put(&mut bytes, at::FILL, &config.fill.to_le_bytes());
    }
    bytes
}

/// "the bytes of the record stay, and words that 4 refused now mean negative strides": a word of 2^31 and above is the
/// number 2^32 below it, in two's complement.
fn word_to_stride(word: u32) -> i32 {
    word as i32
}

/// The word that reads as this stride.
fn stride_to_word(stride: i32) -> u32 {
    stride as u32
}

/// Four 32-bit numbers, little endian, entry 0 first.
fn numbers(bytes: &[u8], start: usize) -> [u32; 4] {
    [0, 4, 8, 12].map(|place| u32::from_le_bytes(four_bytes(bytes, start + place)))
}

fn four_bytes(bytes: &[u8], start: usize) -> [u8; 4] {
    [bytes[start], bytes[start + 1], bytes[start + 2], bytes[start + 3]]
}

fn put_numbers(bytes: &mut [u8], start: usize, entries: &[u32; 4]) {
    for d in 0..4 {
        put(bytes, start + 4 * d, &entries[d].to_le_bytes());
    }
}

fn put(bytes: &mut [u8], start: usize, given: &[u8]) {
    bytes[start..start + given.len()].copy_from_slice(given);
}
