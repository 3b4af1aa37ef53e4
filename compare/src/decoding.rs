//! Decoding by search: every word of the plate where they are few, else a forward pass that carries whole
//! beginnings of words.

use crate::coding::encode;
use crate::linear::Basis;
use crate::plate::{refuse, Plate, Refusal};
use crate::words::{earlier, metric, ones_before};
use std::collections::HashMap;
use std::hash::{BuildHasherDefault, Hasher};

#[derive(Clone, Copy, Debug, PartialEq, Eq)]
pub struct Decoded {
    pub word: u64,
    pub metric: i32,
    pub additions: u64,
    pub comparisons: u64,
}

/// A cheap hash for syndromes; the library's own hash would take most of the time.
#[derive(Default)]
struct Mixed(u64);

impl Hasher for Mixed {
    fn write(&mut self, _: &[u8]) {
        unreachable!("only words are hashed")
    }

    fn write_u64(&mut self, word: u64) {
        let product = word.wrapping_mul(0x9e37_79b9_7f4a_7c15);
        self.0 = product ^ product >> 32;
    }

    fn finish(&self) -> u64 {
        self.0
    }
}

/// For each syndrome that is still to be made up its best metric and the earliest beginning of that metric.
type Beginnings = HashMap<u64, (i32, u64), BuildHasherDefault<Mixed>>;

/// Whether the first of two (metric, word) is to be preferred.
fn preferred(a: (i32, u64), b: (i32, u64)) -> bool {
    a.0 > b.0 || a.0 == b.0 && earlier(a.1, b.1)
}

/// The best of all words, one by one.
pub fn of_all_codewords(plate: &Plate, samples: &[i16]) -> (i32, u64) {
    let first = encode(plate, 0).unwrap();
    let mut best = (metric(first, samples), first);
    for information in 1..=ones_before(plate.k()) {
        let word = encode(plate, information).unwrap();
        let found = (metric(word, samples), word);
        if preferred(found, best) {
            best = found;
        }
    }
    best
}

/// One position more on every beginning, with each bit that `bits` permits, those kept that some word
/// continues.
fn lengthened(
    begun: &Beginnings,
    position: usize,
    bits: [bool; 2],
    sample: i16,
    column: u64,
    rest: &Basis,
) -> Beginnings {
    let mut longer = Beginnings::with_capacity_and_hasher(2 * begun.len(), Default::default());
    for (&syndrome, &(value, word)) in begun {
        let with_zero = (syndrome, (value + i32::from(sample), word));
        let with_one = (syndrome ^ column, (value - i32::from(sample), word | 1 << position));
        for (permitted, (syndrome, found)) in bits.into_iter().zip([with_zero, with_one]) {
            if !permitted || rest.express(syndrome).is_none() {
                continue;
            }
            let kept = longer.entry(syndrome).or_insert(found);
            if preferred(found, *kept) {
                *kept = found;
            }
        }
    }
    longer
}

/// The best word by a forward pass. What begins is to make up the syndrome of the plate's words.
/// Beginnings that leave equal syndromes go on alike, so of each such class only the best beginning, and of equals the earliest, can begin the answer.
pub fn by_forward_pass(plate: &Plate, samples: &[i16]) -> (i32, u64) {
    by_forward_pass_with(plate, samples, None).unwrap()
}

/// The same among the words that have a bit at a position; none where no word has it.
pub fn by_forward_pass_with(
    plate: &Plate,
    samples: &[i16],
    wanted: Option<(usize, u64)>,
) -> Option<(i32, u64)> {
    let (position, digit) = wanted.unwrap_or((plate.n, 0));
    let mut rests = vec![Basis::new()];
    for &column in plate.columns.iter().rev() {
        let mut longer = rests.last().unwrap().clone();
        longer.insert(column, 0);
        rests.push(longer);
    }
    let mut begun = Beginnings::default();
    begun.insert(plate.syndrome_of_words(), (0, 0));
    for (t, &sample) in samples.iter().enumerate() {
        let bits = if t == position { [digit == 0, digit == 1] } else { [true, true] };
        begun = lengthened(&begun, t, bits, sample, plate.columns[t], &rests[plate.n - t - 1]);
    }
    begun.get(&0).copied()
}

/// The paper's two formulas over the profile: additions and comparisons.
pub fn counts(plate: &Plate) -> (u64, u64) {
    let begins = |t: usize| plate.rows.iter().any(|row| row.trailing_zeros() as usize == t);
    let states = |t: usize| 1u64 << plate.profile[t];
    let additions = (0..plate.n).map(|t| if begins(t) { 2 * states(t) } else { states(t) }).sum();
    let entered: u64 = (1..=plate.n).map(states).sum();
    (additions, additions - entered)
}

/// Refusals 6 and 7.
pub fn bad_samples(plate: &Plate, samples: &[i16]) -> Result<(), Refusal> {
    if samples.len() != plate.n {
        return refuse(6, 0);
    }
    if let Some(place) = samples.iter().position(|&y| !(-2047..=2047).contains(&y)) {
        return refuse(7, place);
    }
    Ok(())
}

/// Refusal 8, for a metric room of this length.
pub fn short_metrics(plate: &Plate, metric_count: usize) -> Result<(), Refusal> {
    if metric_count < plate.metrics_needed() {
        return refuse(8, 0);
    }
    Ok(())
}

/// Refusals 8 and 9, for rooms of these lengths.
pub fn short_rooms(plate: &Plate, metric_count: usize, decision_count: usize) -> Result<(), Refusal> {
    short_metrics(plate, metric_count)?;
    if decision_count < plate.decisions_needed() {
        return refuse(9, 0);
    }
    Ok(())
}

/// Refusals 6 to 9, in this order.
pub fn refused(
    plate: &Plate,
    samples: &[i16],
    metric_count: usize,
    decision_count: usize,
) -> Result<(), Refusal> {
    bad_samples(plate, samples)?;
    short_rooms(plate, metric_count, decision_count)
}

/// The answer for `n` permitted samples.
pub fn decode(plate: &Plate, samples: &[i16]) -> Decoded {
    let few = plate.k() <= 8;
    let (metric, word) = if few { of_all_codewords(plate, samples) } else { by_forward_pass(plate, samples) };
    let (additions, comparisons) = counts(plate);
    Decoded { word, metric, additions, comparisons }
}
