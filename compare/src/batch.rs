//! Many blocks in one call: the model's answer, which is decoding's of each block, and inputs at the bounds of its refusals.

use crate::asked::{self, FIXED};
use crate::call::Run;
use crate::comparison::Comparison;
use crate::decoding::{bad_samples, decode, short_rooms};
use crate::header;
use crate::model::{clear_rooms, refused_at, Model, DONE};
use crate::plate::{refuse, Plate, Refusal};
use crate::random::{samples, Random};

/// Refusals 6 to 9, with so many words and scores lent: 6 unless the samples are as many whole blocks, 7 by the place in the run.
fn refused(
    plate: &Plate,
    samples: &[i16],
    answers: (usize, usize),
    rooms: (usize, usize),
) -> Result<(), Refusal> {
    let blocks = samples.chunks_exact(plate.n);
    if !blocks.remainder().is_empty() || blocks.len() != answers.0 || blocks.len() != answers.1 {
        return refuse(6, 0);
    }
    for (block, samples) in blocks.enumerate() {
        if let Err(refusal) = bad_samples(plate, samples) {
            return refuse(7, block * plate.n + refusal.place as usize);
        }
    }
    short_rooms(plate, rooms.0, rooms.1)
}

/// The model's reply to the call.
pub fn answer(model: &mut Model, runs: &mut [Run]) -> u64 {
    let [plate, samples, metrics, decisions, words, scores, counts, place] = runs else {
        unreachable!("a batch has eight runs")
    };
    let samples = samples.samples();
    let accepted = model.plate(plate.words()).and_then(|plate| {
        let answers = (words.words().len(), scores.metrics().len());
        refused(&plate, samples, answers, (metrics.metrics().len(), decisions.words().len()))?;
        Ok(plate)
    });
    let plate = match accepted {
        Ok(plate) => plate,
        Err(refusal) => return refused_at(refusal, place),
    };
    let mut counted = [0; 2];
    for (block, samples) in samples.chunks(plate.n).enumerate() {
        let found = decode(&plate, samples);
        words.words()[block] = found.word;
        scores.metrics()[block] = found.metric;
        counted = [found.additions, found.comparisons];
    }
    clear_rooms(&plate, metrics.metrics(), decisions.words());
    counts.words()[..2].copy_from_slice(&counted);
    place.words()[0] = 0;
    DONE
}

fn some_blocks(random: &mut Random, plate: &Plate, count: usize) -> Vec<i16> {
    (0..count).flat_map(|_| samples(random, plate.n)).collect()
}

/// A batch of up to four blocks on a plate.
pub fn some(comparison: &mut Comparison, random: &mut Random, plate: &Plate, flat: &[u64]) {
    let (metrics, decisions) = header::rooms(plate);
    let count = random.below(if plate.widest() > 8 { 2 } else { 5 });
    let (samples, more) = (some_blocks(random, plate, count), random.pick(&[0, 0, 1, 17]));
    let working = (metrics + more, decisions + more);
    comparison.agree(asked::decode_blocks(flat, &samples, (count, count), working, FIXED));
}

/// Answers, samples and rooms about what they are to be, for batches of each size.
pub fn bounds(comparison: &mut Comparison, random: &mut Random, plate: &Plate) {
    let (flat, (metrics, decisions)) = (plate.flat(), header::rooms(plate));
    for count in 0..if plate.widest() > 8 { 2 } else { 4 } {
        let good = some_blocks(random, plate, count);
        let mut ask = |samples: &[i16], words, scores, working| {
            comparison.agree(asked::decode_blocks(&flat, samples, (words, scores), working, FIXED));
        };
        for words in [0, count.saturating_sub(1), count, count + 1] {
            for scores in [0, count.saturating_sub(1), count, count + 1] {
                ask(&good, words, scores, (metrics, decisions));
                ask(&good, words, scores, (0, 0));
            }
        }
        for working in [(0, 0), (metrics - 1, decisions), (metrics, decisions - 1), (metrics - 1, 0)] {
            ask(&good, count, count, working);
        }
        for length in [good.len() + 1, good.len().saturating_sub(1), good.len() + plate.n - 1] {
            let mut samples = good.clone();
            samples.resize(length, 2048);
            ask(&samples, count, count, (metrics, decisions));
            ask(&samples, count + 1, count + 1, (metrics, decisions));
        }
        for place in 0..good.len() {
            let mut samples = good.clone();
            samples[place] = random.pick(&[2048, -2048, i16::MAX, i16::MIN]);
            ask(&samples, count, count, (metrics, decisions));
            ask(&samples, count, count, (0, 0));
            ask(&samples, count + 1, count, (0, 0));
            samples[place..].fill(-2048);
            ask(&samples, count, count, (metrics, decisions));
        }
    }
}
