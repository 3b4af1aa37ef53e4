//! Single-precision samples: steps of every exponent, values at and beside each product, every kind of value that is no ordinary one,
//! and blocks at the bounds of their refusals.

use crate::asked::{Rooms, FIXED};
use crate::comparison::Comparison;
use crate::floats::{INFINITY, NEGATIVE};
use crate::level::{asked, asked_one};
use crate::random::Random;

/// Top levels at and beyond their bounds, those that a byte would not hold among them.
const TOPS: [u64; 15] = [0, 1, 2, 3, 64, 100, 126, 127, 128, 255, 256, 257, (1 << 32) + 1, 1 << 63, u64::MAX];

/// Values that are no ordinary ones: zeros, the least and the largest of each kind, infinities, what is not a number.
const ODD: [u32; 13] = [
    0,
    1,
    2,
    0x007f_ffff,
    0x0080_0000,
    0x0080_0001,
    0x3f80_0000,
    0x7f7f_fffe,
    0x7f7f_ffff,
    INFINITY,
    INFINITY + 1,
    0x7fc0_0000,
    0x7fff_ffff,
];

/// Fractions of a step: of these products that end with many ones, with a half to be rounded, or with nothing to be rounded.
const FRACTIONS: [u32; 8] = [0, 1, 2, 0x2a_aaab, 0x40_0000, 0x55_5555, 0x7f_fffe, 0x7f_ffff];

/// Bits of a value about a level's product: the product as the processor has it or one of its neighbours, of either sign. That it is
/// near is all that is asked of it; what it gives is for the model.
fn about(random: &mut Random, step: u32, level: u64) -> u32 {
    let product = (f32::from_bits(step) * level as f32).to_bits() & !NEGATIVE;
    let near = random.pick(&[product, product.saturating_sub(1), product + 1, product, product ^ 1]);
    near | random.pick(&[0, NEGATIVE])
}

/// Any bits, mostly of a value that is about as large as the step.
fn some_value(random: &mut Random, step: u32) -> u32 {
    match random.below(8) {
        0 => random.next() as u32,
        1 => random.pick(&ODD) | random.pick(&[0, NEGATIVE]),
        _ => {
            let level = random.below(130) as u64;
            about(random, step, level)
        }
    }
}

/// A step that is mostly permitted with its top level.
fn some_setting(random: &mut Random) -> (u32, u64) {
    let step = match random.below(10) {
        0 => random.next() as u32,
        1 => random.pick(&ODD),
        _ => (random.below(249) as u32) << 23 | random.next() as u32 & 0x7f_ffff,
    };
    let top = if random.one_in(8) { random.pick(&TOPS) } else { 1 + random.below(127) as u64 };
    (step, top)
}

/// Every exponent of a step, with fractions of each kind: each top level, and values about products, odd values, erased ones.
fn every_exponent(comparison: &mut Comparison, random: &mut Random) {
    for exponent in 0..256u32 {
        for fraction in FRACTIONS {
            let step = exponent << 23 | fraction;
            for top in TOPS {
                let levels = [top.min(127), 1, 2, random.below(129) as u64];
                for level in levels.into_iter().take(if (1..128).contains(&top) { 4 } else { 1 }) {
                    let value = about(random, step, level);
                    comparison.agree(asked_one(step, top, value, 0, FIXED));
                }
                if top > 127 {
                    continue;
                }
                let odd = random.pick(&ODD);
                comparison.agree(asked_one(step, top, odd, 0, FIXED));
                comparison.agree(asked_one(step, top, odd | NEGATIVE, random.pick(&[0, 0, 1, 2]), FIXED));
            }
            comparison.agree(asked_one(step | NEGATIVE, 127, fraction, 0, FIXED));
        }
    }
}

/// Every exponent of a value, of both signs, against a few steps.
fn every_value(comparison: &mut Comparison) {
    for step in [1, 3, 0x7f_ffff, 0x0080_0000, 0x3dcc_cccd, 0x3f80_0000, 0x7b00_0000, 0x7c01_0204] {
        for exponent in 0..256u32 {
            for fraction in FRACTIONS {
                for sign in [0, NEGATIVE] {
                    let value = sign | exponent << 23 | fraction;
                    comparison.agree(asked_one(step, 127, value, 0, FIXED));
                }
            }
        }
    }
}

/// Each odd step with each odd value, of both signs, heard and erased.
fn odd_values(comparison: &mut Comparison) {
    let signed = |bits: u32| [bits, bits | NEGATIVE];
    for step in ODD.into_iter().flat_map(signed) {
        for value in ODD.into_iter().flat_map(signed) {
            for (top, erased) in [(1, 0), (127, 0), (127, 1), (127, 2), (128, 0), (0, 1 << 63)] {
                comparison.agree(asked_one(step, top, value, erased, FIXED));
            }
        }
    }
}

/// The largest step that is permitted with each top level, and those beside it: 24 where the product rounds to infinity.
fn largest_steps(comparison: &mut Comparison) {
    for top in 1..=128u64 {
        let bound = (f32::MAX / top as f32).to_bits();
        for step in bound - 3..=bound + 3 {
            for value in [INFINITY, 0x7f7f_ffff, 0x7f7f_fffe, step, NEGATIVE | INFINITY, NEGATIVE | step] {
                comparison.agree(asked_one(step, top, value, 0, FIXED));
            }
        }
    }
}

fn some_block(random: &mut Random, step: u32, n: usize) -> Vec<u32> {
    let mut values: Vec<u32> = (0..n).map(|_| some_value(random, step)).collect();
    if !random.one_in(3) {
        let number = |value: &mut u32| {
            if *value & !NEGATIVE > INFINITY {
                *value = random.pick(&[0, NEGATIVE, 1, INFINITY]);
            }
        };
        values.iter_mut().for_each(number);
    }
    values
}

/// Random blocks, some with a setting, a length or a value that is refused, or several of these.
fn some_blocks(comparison: &mut Comparison, random: &mut Random, count: usize) {
    for _ in 0..count {
        let n = 1 + random.below(64);
        let (step, top) = some_setting(random);
        let mut values = some_block(random, step, n);
        let (mut asked_n, mut levels) = (n as u64, n);
        let (many, few) = (random.next(), random.next() & random.next());
        let erased = random.pick(&[0, 0, many, few, u64::MAX, 1]);
        if random.one_in(8) {
            asked_n = random.pick(&[0, 65, 66, 1 << 32, (1 << 32) + n as u64, u64::MAX, n as u64 + 1]);
        }
        if random.one_in(8) {
            values.resize(random.pick(&[0, n - 1, n + 1, 64, 65]), 0x7fc0_0000);
        }
        if random.one_in(8) {
            levels = random.pick(&[0, n - 1, n + 1, 64, 65]);
        }
        comparison.agree(asked(asked_n, (step, top), &values, erased, levels, FIXED));
    }
}

/// A value that is not a number at each position of a block, heard and erased, and a second one after it.
fn no_numbers(comparison: &mut Comparison, random: &mut Random) {
    for n in [1, 2, 7, 63, 64usize] {
        for place in 0..n {
            let mut values = vec![0x3f80_0000; n];
            values[place] = random.pick(&[INFINITY + 1, 0x7fc0_0000, u32::MAX, NEGATIVE | 0x7fc0_0000]);
            let beyond = if n == 64 { 0 } else { u64::MAX << n };
            for erased in [0, 1 << place, !(1 << place), beyond, beyond | 1 << place] {
                comparison.agree(asked(n as u64, (0x3f00_0000, 5), &values, erased, n, FIXED));
            }
            values[random.below(n)] = 0x7fc0_0000;
            comparison.agree(asked(n as u64, (0x3f00_0000, 5), &values, 1 << place, n, FIXED));
        }
    }
}

/// Each refusal with each that comes after it, and none.
fn refusals(comparison: &mut Comparison) {
    for n in [0, 1, 3, 64, 65, 1 << 32, u64::MAX] {
        for setting in [(0x3f80_0000, 3), (0x3f80_0000, 0), (0, 3), (0x7f7f_ffff, 2), (0x7fc0_0000, 128)] {
            for count in [0, 1, 2, 3, 4, 64, 65] {
                for levels in [0, 1, 2, 3, 4, 64, 65] {
                    for value in [0x4000_0000, 0x7fc0_0000] {
                        let values = vec![value; count];
                        comparison.agree(asked(n, setting, &values, 0, levels, FIXED));
                        comparison.agree(asked(n, setting, &values, 5, levels, FIXED));
                    }
                }
            }
        }
    }
}

/// Runs of fixed use at lengths about their own, with calls that are done and calls that are refused.
fn shapes(comparison: &mut Comparison) {
    for length in 0..3 {
        let rooms = Rooms { single: length, place: length, ..FIXED };
        for (step, value, count) in [(0x3f80_0000, 0x4000_0000, 2), (0, 0x4000_0000, 2), (1, u32::MAX, 1)] {
            comparison.agree(asked_one(step, 5, value, 0, rooms));
            comparison.agree(asked(2, (step, 5), &vec![value; count], 0, 2, rooms));
        }
    }
}

pub fn run(comparison: &mut Comparison, random: &mut Random, count: usize) {
    comparison.begin("single-precision samples");
    shapes(comparison);
    refusals(comparison);
    no_numbers(comparison, random);
    odd_values(comparison);
    largest_steps(comparison);
    if count > 0 {
        every_value(comparison);
        every_exponent(comparison, random);
    }
    more(comparison, random, count);
}

/// So many random blocks, and eight single samples for each.
pub fn more(comparison: &mut Comparison, random: &mut Random, count: usize) {
    comparison.begin("single-precision samples");
    some_blocks(comparison, random, count);
    for _ in 0..8 * count {
        let (step, top) = some_setting(random);
        let value = some_value(random, step);
        comparison.agree(asked_one(step, top, value, random.pick(&[0, 0, 0, 0, 1, 1 << 32]), FIXED));
    }
}
