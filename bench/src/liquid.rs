//! liquid-dsp's soft decoder of its (8,4) code: the least nanoseconds a block.

use crate::timing::best;
use std::hint::black_box;

extern "C" {
    fn liquid_blocks(soft: *const u8, bytes: u32, out: *mut u8) -> i32;
}

/// Blocks of eight samples, as soft bits of a byte each: 0 is surely 0, 255 surely 1. Two blocks make a byte.
pub fn time(blocks: &[Vec<i16>], rounds: usize) -> f64 {
    let soft: Vec<u8> =
        blocks.iter().flatten().map(|&sample| (128 - sample / 16).clamp(0, 255) as u8).collect();
    let mut out = vec![0u8; blocks.len() / 2];
    let run = || _ = unsafe { liquid_blocks(black_box(soft.as_ptr()), out.len() as u32, out.as_mut_ptr()) };
    best(rounds, run) / blocks.len() as f64
}
