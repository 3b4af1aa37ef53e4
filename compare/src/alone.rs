//! The best metric without a word: over the words in Gray order where they are few, else by a pass from
//! the far end that carries values only.

use crate::linear::Basis;
use crate::plate::Plate;
use crate::words::metric;
use std::collections::BTreeMap;

/// The greatest metric of all words, each one row away from the one before.
pub fn by_gray_order(plate: &Plate, samples: &[i16]) -> i32 {
    let mut word = plate.mask;
    let mut best = metric(word, samples);
    for step in 1..1u64 << plate.k() {
        word ^= plate.rows[step.trailing_zeros() as usize];
        best = best.max(metric(word, samples));
    }
    best
}

/// For each depth the greatest value of the endings from there on, by their syndromes. An ending goes with the beginnings that make up the
/// syndrome of the plate's words with it, so of each syndrome only the greatest value counts, and one that no beginning makes up is left out.
pub fn endings(plate: &Plate, samples: &[i16]) -> Vec<BTreeMap<u64, i32>> {
    let whole = plate.syndrome_of_words();
    let mut before = vec![Basis::new()];
    for &column in &plate.columns {
        let mut longer = before.last().unwrap().clone();
        longer.insert(column, 0);
        before.push(longer);
    }
    let mut by_depth = vec![BTreeMap::new(); plate.n];
    by_depth.push(BTreeMap::from([(0u64, 0i32)]));
    for t in (0..plate.n).rev() {
        let mut longer = BTreeMap::new();
        for (&syndrome, value) in &by_depth[t + 1] {
            let sample = i32::from(samples[t]);
            let with_zero = (syndrome, value + sample);
            let with_one = (syndrome ^ plate.columns[t], value - sample);
            for (syndrome, value) in [with_zero, with_one] {
                if before[t].express(syndrome ^ whole).is_some() {
                    let kept = longer.entry(syndrome).or_insert(value);
                    *kept = value.max(*kept);
                }
            }
        }
        by_depth[t] = longer;
    }
    by_depth
}

/// The same by endings.
pub fn by_endings(plate: &Plate, samples: &[i16]) -> i32 {
    endings(plate, samples)[0][&plate.syndrome_of_words()]
}

/// The best metric for `n` permitted samples.
pub fn best_metric(plate: &Plate, samples: &[i16]) -> i32 {
    let by = if plate.k() <= 8 { by_gray_order } else { by_endings };
    by(plate, samples)
}
