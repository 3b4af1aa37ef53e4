//! Why a word is not the answer: where its beginning stops, by the plate's words one by one where they are few, else
//! by what the later columns of the parity check can still make up.

use crate::coding::encode;
use crate::decoding::decode;
use crate::linear::Basis;
use crate::plate::Plate;
use crate::words::{bit, metric, ones_before};

#[derive(Clone, Copy, Debug, PartialEq, Eq)]
pub enum Reason {
    Chosen,
    NoCodeword(usize),
    ScoresLess(i32),
    TiesAndLoses(usize),
}

/// The first position below n at which no word of the plate has the word's beginning, and n where there is none.
pub fn stop_of_all(plate: &Plate, word: u64) -> usize {
    let ours = |information| encode(plate, information).unwrap();
    let left: Vec<u64> = (0..=ones_before(plate.k())).map(|information| ours(information) ^ word).collect();
    let stops = |position: &usize| left.iter().all(|differing| differing & ones_before(position + 1) != 0);
    (0..plate.n).find(stops).unwrap_or(plate.n)
}

/// The same by syndromes: a beginning goes on where the later columns have what it leaves of the words' syndrome in their span.
pub fn stop_by_syndromes(plate: &Plate, word: u64) -> usize {
    let mut last = vec![Basis::new()];
    for &column in plate.columns.iter().rev() {
        let mut more = last.last().unwrap().clone();
        more.insert(column, 0);
        last.push(more);
    }
    let mut syndrome = plate.syndrome_of_words();
    for (position, column) in plate.columns.iter().enumerate() {
        syndrome ^= column * bit(word, position);
        if last[plate.n - 1 - position].express(syndrome).is_none() {
            return position;
        }
    }
    plate.n
}

/// The reason for a word, against the answer for `n` permitted samples.
pub fn why_not(plate: &Plate, samples: &[i16], word: u64) -> Reason {
    let found = decode(plate, samples);
    let stop = if plate.k() <= 8 { stop_of_all } else { stop_by_syndromes };
    let position = stop(plate, word);
    if position < plate.n || word & !ones_before(plate.n) != 0 {
        return Reason::NoCodeword(position);
    }
    match (found.metric - metric(word, samples), found.word ^ word) {
        (_, 0) => Reason::Chosen,
        (0, differing) => Reason::TiesAndLoses((0..64).find(|&i| bit(differing, i) == 1).unwrap()),
        (difference, _) => Reason::ScoresLess(difference),
    }
}

/// How a reason stands in its cells: its number, its position, its difference.
pub fn cells(reason: Reason) -> ([u64; 2], i32) {
    match reason {
        Reason::Chosen => ([0, 0], 0),
        Reason::NoCodeword(position) => ([1, position as u64], 0),
        Reason::ScoresLess(difference) => ([2, 0], difference),
        Reason::TiesAndLoses(position) => ([3, position as u64], 0),
    }
}
