//! Two section steps in Rust: a straightforward one, and one on blocks of 64 states.

use crate::sections::{parity, Section};

/// The better branch of one state: its metric and its bit.
#[inline]
fn better(c: &Section, sample: i32, from: &[i32], x: usize) -> (i32, u64) {
    let plain = c.bit(x);
    let a = from[c.without(x)];
    if !c.begins {
        return (if plain == 1 { a - sample } else { a + sample }, plain);
    }
    let b = from[c.without(x + (1 << c.live))];
    let zero = sample + if plain == 1 { b } else { a };
    let one = -sample + if plain == 1 { a } else { b };
    (i32::max(zero, one), u64::from(one > zero))
}

/// One state after the other, as the definition goes.
pub fn straight(c: &Section, sample: i32, from: &[i32], to: &mut [i32], decisions: &mut [u64]) {
    for x in 0..1 << c.live {
        let (best, bit) = better(c, sample, from, x);
        to[x] = best;
        decisions[x / 64] |= bit << (x % 64);
    }
}

/// Up to 64 states, from the last down, with their decisions gathered in one word.
fn narrow(c: &Section, sample: i32, from: &[i32], to: &mut [i32], decisions: &mut [u64]) {
    let mut word = 0;
    for (x, out) in to[..1 << c.live].iter_mut().enumerate().rev() {
        let (best, bit) = better(c, sample, from, x);
        *out = best;
        word = 2 * word + bit;
    }
    decisions[0] = word;
}

/// The parity of x and column for 64 states from a multiple of 64 on, by the column's low six digits.
fn pattern(column: u64) -> u64 {
    const DIGITS: [u64; 6] = [
        0xaaaa_aaaa_aaaa_aaaa,
        0xcccc_cccc_cccc_cccc,
        0xf0f0_f0f0_f0f0_f0f0,
        0xff00_ff00_ff00_ff00,
        0xffff_0000_ffff_0000,
        0xffff_ffff_0000_0000,
    ];
    (0..6).filter(|j| column >> j & 1 == 1).fold(0, |word, j| word ^ DIGITS[j])
}

/// The metrics that 64 states' branches lead to: each run of 2^ending is read twice.
fn fetch(from: &[i32], ending: Option<u32>, out: &mut [i32; 64]) {
    fn doubled<const RUN: usize>(from: &[i32], out: &mut [i32; 64]) {
        for (pair, run) in out.chunks_exact_mut(2 * RUN).zip(from[..32].chunks_exact(RUN)) {
            pair[..RUN].copy_from_slice(run);
            pair[RUN..].copy_from_slice(run);
        }
    }
    match ending {
        Some(0) => doubled::<1>(from, out),
        Some(1) => doubled::<2>(from, out),
        Some(2) => doubled::<4>(from, out),
        Some(3) => doubled::<8>(from, out),
        Some(4) => doubled::<16>(from, out),
        Some(5) => doubled::<32>(from, out),
        _ => out.copy_from_slice(&from[..64]),
    }
}

/// 64 numbers 0 or 1 as the bits of a word.
fn pack(t: &mut [u32; 64]) -> u64 {
    for i in 0..16 {
        t[i] |= t[i + 16] << 16;
        t[i + 32] |= t[i + 48] << 16;
    }
    for i in 0..8 {
        t[i] |= t[i + 8] << 8;
        t[i + 32] |= t[i + 40] << 8;
    }
    for i in 0..4 {
        t[i] |= t[i + 4] << 4;
        t[i + 32] |= t[i + 36] << 4;
    }
    let low = t[0] | t[1] << 1 | t[2] << 2 | t[3] << 3;
    let high = t[32] | t[33] << 1 | t[34] << 2 | t[35] << 3;
    u64::from(low) | u64::from(high) << 32
}

/// Per state of a block the gain of the branch without the beginning row, and 1 where its bit is 1, so
/// that the other branch is to be taken on a tie.
fn gains(ones: u64, sample: i32) -> ([i32; 64], [i32; 64]) {
    let bit = |i| (ones >> i & 1) as i32;
    (std::array::from_fn(|i| if bit(i) == 1 { -sample } else { sample }), std::array::from_fn(bit))
}

/// Blocks of 64 states: metrics fetched into local arrays, choices that vectorise, decisions packed.
pub fn block(c: &Section, sample: i32, from: &[i32], to: &mut [i32], decisions: &mut [u64]) {
    if c.live < 7 {
        return narrow(c, sample, from, to, decisions);
    }
    let states = 1 << c.live;
    let far = c.without(states);
    let ones = if c.turned == 1 { !pattern(c.column) } else { pattern(c.column) };
    let ready = [gains(ones, sample), gains(!ones, sample)];
    let (mut zero, mut one, mut taken) = ([0; 64], [0; 64], [0; 64]);
    let blocks = to[..states].chunks_exact_mut(64).zip(decisions);
    for (number, (out, decision)) in blocks.enumerate() {
        let x = 64 * number;
        let turned = parity(x as u64 & c.column) as usize;
        let (gain, tie) = &ready[turned];
        let at = c.without(x);
        fetch(&from[at..], c.ending, &mut zero);
        let plain = if turned == 1 { !ones } else { ones };
        if !c.begins {
            (0..64).for_each(|i| out[i] = zero[i] + gain[i]);
            *decision = plain;
            continue;
        }
        fetch(&from[at + far..], c.ending, &mut one);
        for i in 0..64 {
            let (a, b) = (zero[i] + gain[i], one[i] - gain[i]);
            let take = b + tie[i] > a;
            out[i] = if take { b } else { a };
            taken[i] = u32::from(take);
        }
        *decision = pack(&mut taken) ^ plain;
    }
}
