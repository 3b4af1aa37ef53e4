//! Damaged plates: each of the 132 numbers changed in several ways, and every call that takes a plate.

use crate::asked::{self, FIXED};
use crate::bounds::READINGS;
use crate::comparison::Comparison;
use crate::header;
use crate::judge::{self, SURPLUS};
use crate::plate::{prepare, prepare_masked, Kind, Plate, PLATE_WORDS};
use crate::random::{matrix, samples, Random};
use crate::weights::{effort, working_needed, COUNTS};
use crate::words::ones_before;

/// The changes made to one number.
fn changes(random: &mut Random, old: u64) -> Vec<u64> {
    let flipped = old ^ 1 << random.below(64);
    let mut new = vec![
        old ^ 1,
        old.wrapping_add(1),
        old.wrapping_sub(1),
        flipped,
        old | 1 << 63,
        old ^ 256,
        old ^ 1 << 32,
    ];
    new.extend([0, u64::MAX, random.next()]);
    new.retain(|&value| value != old);
    new
}

/// Every call that takes a plate, with arguments that are good for the plate before its damage.
fn every_call(comparison: &mut Comparison, random: &mut Random, sound: &Plate, flat: &[u64]) {
    let (metrics, decisions) = header::rooms(sound);
    comparison.agree(asked::branch(flat, 0, 0, random.next() % 2, FIXED));
    comparison.agree(asked::encode(flat, random.word(sound.k()), FIXED));
    comparison.agree(asked::read_back(flat, 0, FIXED));
    let block = samples(random, sound.n);
    comparison.agree(asked::decode(flat, &block, metrics, decisions, FIXED));
    comparison.agree(asked::decode_blocks(flat, &block, (1, 1), (metrics, decisions), FIXED));
    comparison.agree(asked::metric(flat, &block, metrics, FIXED));
    comparison.agree(asked::word(flat, &block, metrics, decisions, FIXED));
    comparison.agree(asked::firmness(flat, &block, 0, metrics, decisions, FIXED));
    comparison.agree(asked::why_not(flat, &block, 0, metrics, decisions, FIXED));
    comparison.agree(asked::widest(flat, FIXED));
    if sound.widest() < 5 && effort(sound) < 12 {
        comparison.agree(asked::weights(flat, COUNTS, working_needed(sound), FIXED));
    }
    if sound.widest() < 8 {
        comparison.agree(asked::firmness_all(flat, &block, (metrics, decisions), READINGS, FIXED));
    }
    comparison.agree(judge::asked(flat, b"branch\t0\t0\t1\t0\n", 4, SURPLUS, FIXED));
    comparison.agree(asked::write_plate(flat, 256, FIXED));
    comparison.agree(asked::write_profile(flat, 256, FIXED));
    comparison.agree(asked::write_word(flat, (1, -1, 1, 0), 256, FIXED));
}

/// The calls that can meet refusals besides 5, all wrong at once: 5 comes first.
fn all_wrong(comparison: &mut Comparison, random: &mut Random, flat: &[u64]) {
    comparison.agree(asked::branch(flat, 64, u64::MAX, 2, FIXED));
    comparison.agree(asked::encode(flat, u64::MAX, FIXED));
    comparison.agree(asked::read_back(flat, random.next(), FIXED));
    comparison.agree(asked::decode(flat, &[200], 0, 0, FIXED));
    comparison.agree(asked::decode_blocks(flat, &[200], (0, 1), (0, 0), FIXED));
    comparison.agree(asked::metric(flat, &[200], 0, FIXED));
    comparison.agree(asked::word(flat, &[200], 0, 0, FIXED));
    comparison.agree(asked::firmness(flat, &[200], 64, 0, 0, FIXED));
    comparison.agree(asked::why_not(flat, &[200], random.next(), 0, 0, FIXED));
    comparison.agree(asked::weights(flat, 64, 0, FIXED));
    comparison.agree(asked::firmness_all(flat, &[200], (0, 0), READINGS, FIXED));
    comparison.agree(judge::asked(flat, random.pick(&[&b"branch"[..], b"x\n\n", b"\n"]), 0, SURPLUS, FIXED));
    comparison.agree(asked::write_plate(flat, 0, FIXED));
}

/// Damages that keep the code but not the plate: rows added together, put in another order, doubled.
fn kept_codes(random: &mut Random, sound: &Plate) -> Vec<Vec<u64>> {
    let (mut damaged, k) = (Vec::new(), sound.k());
    for _ in 0..if k < 2 { 0 } else { 12 } {
        let (i, j) = (2 + random.below(k), 2 + random.below(k));
        if i != j {
            let (mut sum, mut turned, mut doubled) = (sound.flat(), sound.flat(), sound.flat());
            sum[i] ^= sum[j];
            turned.swap(i, j);
            doubled[i] = doubled[j];
            damaged.extend([sum, turned, doubled]);
        }
    }
    damaged
}

/// Makings of plates that differ from prepared ones in one deed only: too wide, a row or the mask over the end.
fn near_plates() -> Vec<Vec<u64>> {
    let mut wide = vec![0; PLATE_WORDS];
    (wide[0], wide[1]) = (26, 13);
    for i in 0..13 {
        wide[2 + i] = 1 << i | 1 << (i + 13);
    }
    for t in 0..=26usize {
        wide[66 + t] = t.min(26 - t) as u64;
    }
    let mut over = prepare(8, Kind::G, &[ones_before(8)]).unwrap().flat();
    let mut masked = over.clone();
    over[2] |= 1 << 8;
    masked[131] = 1 << 8;
    vec![wide, over, masked, vec![0; PLATE_WORDS], vec![u64::MAX; PLATE_WORDS]]
}

pub fn run(comparison: &mut Comparison, random: &mut Random, plates: usize) {
    comparison.begin("damaged plates");
    for flat in near_plates() {
        all_wrong(comparison, random, &flat);
        comparison.agree(asked::read_back(&flat, 0, FIXED));
    }
    more(comparison, random, plates);
}

/// So many random plates, each damaged in every number.
pub fn more(comparison: &mut Comparison, random: &mut Random, plates: usize) {
    comparison.begin("damaged plates");
    for _ in 0..plates {
        let found = matrix(random);
        let Ok(sound) = prepare_masked(found.n, Kind::G, &found.rows, found.mask) else {
            continue;
        };
        for field in 0..PLATE_WORDS {
            for value in changes(random, sound.flat()[field]) {
                let mut flat = sound.flat();
                flat[field] = value;
                every_call(comparison, random, &sound, &flat);
                all_wrong(comparison, random, &flat);
            }
        }
        for flat in kept_codes(random, &sound) {
            every_call(comparison, random, &sound, &flat);
        }
    }
}
