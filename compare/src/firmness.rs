//! How firm a position is, or each, by search among the words that have a bit there.

use crate::alone::endings;
use crate::call::Run;
use crate::coding::encode;
use crate::decoding::{self, bad_samples, by_forward_pass_with, short_rooms};
use crate::model::{clear_rooms, refused_at, Model, DONE};
use crate::plate::{refuse, Plate, Refusal};
use crate::words::{bit, metric, ones_before};
use std::collections::BTreeMap;

#[derive(Clone, Copy, Debug, PartialEq, Eq)]
pub enum Reading {
    Fixed(u64),
    Open(i32),
}

impl Reading {
    /// The two cells of a reading: whether it is fixed, and its bit or margin.
    fn cells(self) -> (u64, i32) {
        match self {
            Reading::Fixed(digit) => (1, digit as i32),
            Reading::Open(margin) => (0, margin),
        }
    }
}

/// The greatest metric of the words with a bit at a position, one by one; none where no word has it.
pub fn best_of_all(plate: &Plate, samples: &[i16], position: usize, digit: u64) -> Option<i32> {
    let words = (0..=ones_before(plate.k())).map(|information| encode(plate, information).unwrap());
    words.filter(|&word| bit(word, position) == digit).map(|word| metric(word, samples)).max()
}

/// The same by a forward pass that takes only this bit at the position.
pub fn best_by_pass(plate: &Plate, samples: &[i16], position: usize, digit: u64) -> Option<i32> {
    by_forward_pass_with(plate, samples, Some((position, digit))).map(|(metric, _)| metric)
}

/// The reading that both best metrics give.
pub fn reading_of(zero: Option<i32>, one: Option<i32>) -> Reading {
    match (zero, one) {
        (Some(zero), Some(one)) => Reading::Open(zero - one),
        (Some(_), None) => Reading::Fixed(0),
        (None, Some(_)) => Reading::Fixed(1),
        (None, None) => unreachable!("a plate with no word"),
    }
}

/// Refusals 6, 7, 21, 8 and 9, in this order.
pub fn refused(
    plate: &Plate,
    samples: &[i16],
    position: u64,
    metric_count: usize,
    decision_count: usize,
) -> Result<(), Refusal> {
    bad_samples(plate, samples)?;
    if position >= plate.n as u64 {
        return refuse(21, 0);
    }
    short_rooms(plate, metric_count, decision_count)
}

/// The reading of a position of `n` permitted samples.
pub fn firmness(plate: &Plate, samples: &[i16], position: usize) -> Reading {
    let best = if plate.k() <= 8 { best_of_all } else { best_by_pass };
    reading_of(best(plate, samples, position, 0), best(plate, samples, position, 1))
}

/// The readings of all positions, each by a search of its own.
pub fn readings_one_by_one(plate: &Plate, samples: &[i16]) -> Vec<Reading> {
    (0..plate.n).map(|position| firmness(plate, samples, position)).collect()
}

/// The same from both ends: a beginning up to a position and an ending after it make a word where the bit between makes up what is left
/// of the syndrome.
pub fn readings_from_both_ends(plate: &Plate, samples: &[i16]) -> Vec<Reading> {
    let endings = endings(plate, samples);
    let mut begun = BTreeMap::from([(plate.syndrome_of_words(), 0i32)]);
    let mut readings = Vec::new();
    for (t, &sample) in samples.iter().enumerate() {
        let mut best = [None, None];
        let mut longer = BTreeMap::new();
        for (&left, &value) in &begun {
            for (digit, value) in [(0, value + i32::from(sample)), (1, value - i32::from(sample))] {
                let left = left ^ digit * plate.columns[t];
                if let Some(ending) = endings[t + 1].get(&left) {
                    best[digit as usize] = best[digit as usize].max(Some(value + ending));
                    let kept = longer.entry(left).or_insert(value);
                    *kept = value.max(*kept);
                }
            }
        }
        readings.push(reading_of(best[0], best[1]));
        begun = longer;
    }
    readings
}

/// The readings of all positions of `n` permitted samples.
pub fn readings(plate: &Plate, samples: &[i16]) -> Vec<Reading> {
    let by = if plate.k() <= 4 { readings_one_by_one } else { readings_from_both_ends };
    by(plate, samples)
}

/// The model's reply about one position.
pub fn answer_one(model: &mut Model, position: u64, runs: &mut [Run]) -> u64 {
    let [plate, samples, metrics, decisions, fixed, value, place] = runs else {
        unreachable!("firmness has seven runs")
    };
    let samples = samples.samples();
    let accepted = model.plate(plate.words()).and_then(|plate| {
        refused(&plate, samples, position, metrics.length(), decisions.length())?;
        Ok(plate)
    });
    let plate = match accepted {
        Ok(plate) => plate,
        Err(refusal) => return refused_at(refusal, place),
    };
    clear_rooms(&plate, metrics.metrics(), decisions.words());
    (fixed.words()[0], value.metrics()[0]) = firmness(&plate, samples, position as usize).cells();
    place.words()[0] = 0;
    DONE
}

/// The model's reply about every position.
pub fn answer_all(model: &mut Model, runs: &mut [Run]) -> u64 {
    let [plate, samples, metrics, decisions, fixed, values, place] = runs else {
        unreachable!("firmness of all has seven runs")
    };
    let samples = samples.samples();
    let accepted = model.plate(plate.words()).and_then(|plate| {
        decoding::refused(&plate, samples, metrics.length(), decisions.length())?;
        Ok(plate)
    });
    let plate = match accepted {
        Ok(plate) => plate,
        Err(refusal) => return refused_at(refusal, place),
    };
    clear_rooms(&plate, metrics.metrics(), decisions.words());
    for (position, reading) in readings(&plate, samples).into_iter().enumerate() {
        (fixed.words()[position], values.metrics()[position]) = reading.cells();
    }
    place.words()[0] = 0;
    DONE
}
