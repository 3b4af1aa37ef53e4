//! Every small matrix: n up to 4, up to 3 rows, with all samples of -1, 0 and 1. Every small plate besides with masks: all masks where
//! n is up to 3, else one, each in its turn.

use crate::asked::{self, FIXED};
use crate::bounds::READINGS;
use crate::comparison::Comparison;
use crate::header;
use crate::plate::Plate;
use crate::weights::{working_needed, COUNTS};
use std::collections::HashSet;

/// All lists of `count` digits below `base`.
pub fn all_lists(base: u64, count: usize) -> impl Iterator<Item = Vec<u64>> {
    (0..base.pow(count as u32))
        .map(move |code| (0..count).map(|i| code / base.pow(i as u32) % base).collect())
}

/// All matrices with n up to `most_n` and up to `most_rows` rows: n, kind, rows.
pub fn all_matrices(most_n: u64, most_rows: usize) -> impl Iterator<Item = (u64, u64, Vec<u64>)> {
    let sizes = (1..=most_n).flat_map(move |n| (0..=most_rows).map(move |count| (n, count)));
    sizes.flat_map(|(n, count)| {
        (0..2).flat_map(move |kind| all_lists(1 << n, count).map(move |rows| (n, kind, rows)))
    })
}

/// All sample lists of -1, 0 and 1.
pub fn all_samples(n: usize) -> impl Iterator<Item = Vec<i16>> {
    all_lists(3, n).map(|list| list.iter().map(|&y| y as i16 - 1).collect())
}

/// Every branch, information, word and position of a small plate, with some that are refused.
fn all_questions(comparison: &mut Comparison, plate: &Plate, flat: &[u64]) {
    let n = plate.n as u64;
    for depth in 0..=n + 1 {
        for state in 0..=1 << plate.widest() {
            (0..3).for_each(|bit| drop(comparison.agree(asked::branch(flat, depth, state, bit, FIXED))));
        }
    }
    for information in 0..2 << plate.k() {
        comparison.agree(asked::encode(flat, information, FIXED));
    }
    for word in 0..2 << n {
        comparison.agree(asked::read_back(flat, word, FIXED));
    }
    comparison.agree(asked::widest(flat, FIXED));
    comparison.agree(asked::weights(flat, COUNTS, working_needed(plate), FIXED));
    let (metrics, decisions) = header::rooms(plate);
    for samples in all_samples(plate.n) {
        comparison.agree(asked::decode(flat, &samples, metrics, decisions, FIXED));
        comparison.agree(asked::firmness_all(flat, &samples, (metrics, decisions), READINGS, FIXED));
        comparison.agree(asked::metric(flat, &samples, metrics, FIXED));
        comparison.agree(asked::word(flat, &samples, metrics, decisions, FIXED));
        for position in 0..=n {
            comparison.agree(asked::firmness(flat, &samples, position, metrics, decisions, FIXED));
        }
        for word in 0..2 << n {
            comparison.agree(asked::why_not(flat, &samples, word, metrics, decisions, FIXED));
        }
    }
}

/// The masks that a small plate is tried with, `turn` plates having come before it.
fn masks(n: usize, turn: usize) -> Vec<u64> {
    let all = 1 << n;
    if n < 4 {
        (1..all).collect()
    } else {
        vec![1 + turn as u64 % (all - 1)]
    }
}

pub fn run(comparison: &mut Comparison) {
    comparison.begin("every small matrix");
    let mut seen = HashSet::new();
    for (n, kind, rows) in all_matrices(4, 3) {
        let (_, mut prepared) = comparison.agree(asked::prepare(n, kind, &rows, FIXED));
        let flat = prepared.runs[1].words().to_vec();
        let plate = Plate::from_flat(&flat).expect("no small plate is refused");
        let (metrics, decisions) = header::rooms(&plate);
        for samples in all_samples(plate.n) {
            comparison.agree(asked::decode(&flat, &samples, metrics, decisions, FIXED));
        }
        if seen.insert(flat.clone()) {
            all_questions(comparison, &plate, &flat);
            for mask in masks(plate.n, seen.len()) {
                let (_, mut prepared) = comparison.agree(asked::prepare_masked(n, kind, &rows, mask, FIXED));
                let flat = prepared.runs[1].words().to_vec();
                all_questions(
                    comparison,
                    &Plate::from_flat(&flat).expect("no small plate is refused"),
                    &flat,
                );
            }
        }
    }
}
