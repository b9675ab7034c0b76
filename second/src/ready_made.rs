//! The ready-made configurations, with the arguments of the MLI text, and the settings.

use crate::moves::Config;
use crate::tensor::check_rank;
use crate::wire::wire_struct;

wire_struct! {
    /// A ready-made configuration, or "1 with all fields 0".
    #[derive(Copy)]
    Made { status: u8, config: Config }
}

/// "Defaults below the rank: step 1, permutation entry d at d, the rest 0." Of fill "the ready-made ones have 0".
fn defaults(rank: usize) -> Config {
    let mut config = Config::default();
    for d in 0..rank {
        config.step[d] = 1;
        config.perm[d] = d as u8;
    }
    config
}

/// "In them entries at or past the rank are 0, whatever was handed in."
fn below<T: Copy + Default>(rank: usize, entries: [T; 4]) -> [T; 4] {
    let mut kept = [T::default(); 4];
    kept[..rank].copy_from_slice(&entries[..rank]);
    kept
}

/// "made for a rank, and 1 with all fields 0 answers a wrong one"
fn made(rank: u8, set: impl Fn(usize, Config) -> Config) -> Made {
    match check_rank(rank) {
        Ok(rank) => Made { status: 0, config: set(rank, defaults(rank)) },
        Err(fault) => Made { status: fault.status, config: Config::default() },
    }
}

pub fn copy(rank: u8) -> Made {
    made(rank, |_, config| config)
}

pub fn slice(rank: u8, offset: [u32; 4], size: [u32; 4], dst_stride: [u32; 4]) -> Made {
    made(rank, |r, config| Config {
        offset: below(r, offset),
        size: below(r, size),
        dst_stride: below(r, dst_stride),
        ..config
    })
}

pub fn concatenate(rank: u8, dst_offset: [u32; 4], dst_stride: [u32; 4]) -> Made {
    made(rank, |r, config| Config { dst_offset: below(r, dst_offset), dst_stride: below(r, dst_stride), ..config })
}

pub fn subsample(rank: u8, step: [u32; 4], dst_stride: [u32; 4]) -> Made {
    made(rank, |r, config| Config { step: below(r, step), dst_stride: below(r, dst_stride), ..config })
}

pub fn permute(rank: u8, perm: [u8; 4]) -> Made {
    made(rank, |r, config| Config { perm: below(r, perm), ..config })
}

/// MLI: `mli_mov_cfg_all` fills the configuration with the values provided, every field. It has no argument for a fill.
pub fn all(rank: u8, given: &Config) -> Made {
    made(rank, |r, _| Config {
        offset: below(r, given.offset),
        size: below(r, given.size),
        step: below(r, given.step),
        dst_offset: below(r, given.dst_offset),
        dst_stride: below(r, given.dst_stride),
        perm: below(r, given.perm),
        pre: below(r, given.pre),
        post: below(r, given.post),
        fill: 0,
    })
}

/// The four paddings in the order of the MLI text: left and right of W, top and bottom of H.
pub type Padding = [u8; 4];

/// "both pads have rank 3 and pad H (top, bottom) and W (left, right)"
fn pad(h: usize, w: usize, [left, right, top, bottom]: Padding, dst_stride: [u32; 4]) -> Config {
    let mut config = defaults(3);
    config.pre[h] = top;
    config.post[h] = bottom;
    config.pre[w] = left;
    config.post[w] = right;
    config.dst_stride = below(3, dst_stride);
    config
}

pub fn pad_chw(padding: Padding, dst_stride: [u32; 4]) -> Config {
    pad(1, 2, padding, dst_stride)
}

pub fn pad_hwc(padding: Padding, dst_stride: [u32; 4]) -> Config {
    pad(0, 1, padding, dst_stride)
}

/// "Each setting hands the configuration back with its one field set to the four entries given and the others kept";
/// "it needs no rank and refuses nothing." Of fill: "a setting changes it".
impl Config {
    pub fn with_offset(self, offset: [u32; 4]) -> Config {
        Config { offset, ..self }
    }
    pub fn with_size(self, size: [u32; 4]) -> Config {
        Config { size, ..self }
    }
    pub fn with_step(self, step: [u32; 4]) -> Config {
        Config { step, ..self }
    }
    pub fn with_dst_offset(self, dst_offset: [u32; 4]) -> Config {
        Config { dst_offset, ..self }
    }
    pub fn with_dst_stride(self, dst_stride: [u32; 4]) -> Config {
        Config { dst_stride, ..self }
    }
    pub fn with_perm(self, perm: [u8; 4]) -> Config {
        Config { perm, ..self }
    }
    pub fn with_pre(self, pre: [u8; 4]) -> Config {
        Config { pre, ..self }
    }
    pub fn with_post(self, post: [u8; 4]) -> Config {
        Config { post, ..self }
    }
    pub fn with_fill(self, fill: u32) -> Config {
        Config { fill, ..self }
    }
}
