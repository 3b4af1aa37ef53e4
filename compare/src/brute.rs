//! The paper's definitions by brute force over all words of a small length: what the model is held to.

use crate::plate::Kind;
use crate::words::{bit, earlier, metric, ones_before};
use std::collections::BTreeSet;

/// All codewords of a small matrix.
pub fn code(n: usize, kind: Kind, rows: &[u64]) -> BTreeSet<u64> {
    let sum = |taken: u64| (0..rows.len()).filter(|&j| bit(taken, j) == 1).fold(0, |word, j| word ^ rows[j]);
    let even = |word: &u64| rows.iter().all(|row| (word & row).count_ones() % 2 == 0);
    match kind {
        Kind::G => (0..1 << rows.len()).map(sum).collect(),
        Kind::H => (0..1 << n).filter(even).collect(),
    }
}

/// The words that a mask makes of a code: codewords plus mask.
pub fn masked(code: &BTreeSet<u64>, mask: u64) -> BTreeSet<u64> {
    code.iter().map(|word| word ^ mask).collect()
}

fn first_one(word: u64) -> Option<usize> {
    (0..64).find(|&i| bit(word, i) == 1)
}

fn last_one(word: u64) -> Option<usize> {
    (0..64).rev().find(|&i| bit(word, i) == 1)
}

/// For each head: of the codewords that begin there, those that end soonest, of these the earliest.
pub fn plate_rows(code: &BTreeSet<u64>, n: usize) -> Vec<u64> {
    let row = |head: usize| {
        let begin = |word: &&u64| first_one(**word) == Some(head);
        let better =
            |a: &u64, b: &u64| last_one(*a) < last_one(*b) || last_one(*a) == last_one(*b) && earlier(*a, *b);
        code.iter().filter(begin).copied().reduce(|best, word| if better(&word, &best) { word } else { best })
    };
    (0..n).filter_map(row).collect()
}

/// Rows whose first one is before t and whose last one is at t or after.
fn live(rows: &[u64], t: usize) -> Vec<u64> {
    let lives = |row: &&u64| first_one(**row).unwrap() < t && last_one(**row).unwrap() >= t;
    rows.iter().filter(lives).copied().collect()
}

pub fn profile(rows: &[u64], n: usize) -> Vec<usize> {
    (0..=n).map(|t| live(rows, t).len()).collect()
}

/// s(t) once more, by the numbers of codewords that are zero from t on and zero before t.
pub fn profile_by_counting(code: &BTreeSet<u64>, n: usize) -> Vec<usize> {
    let dimension = |mask: u64| code.iter().filter(|&word| word & mask == 0).count().ilog2() as usize;
    let entry = |t| dimension(0) - dimension(ones_before(n) & !ones_before(t)) - dimension(ones_before(t));
    (0..=n).map(entry).collect()
}

/// The ways in which words go on after a beginning of length t.
fn continuations(words: &BTreeSet<u64>, t: usize, begun: u64) -> BTreeSet<u64> {
    words.iter().filter(|&word| word & ones_before(t) == begun).map(|word| word & !ones_before(t)).collect()
}

/// The continuations of each state at depth t: those of the sum of the live rows that it takes and the mask.
pub fn states(words: &BTreeSet<u64>, rows: &[u64], mask: u64, t: usize) -> Vec<(u64, BTreeSet<u64>)> {
    let live = live(rows, t);
    let state = |number: u64| {
        let taken = (0..live.len()).filter(|&j| bit(number, j) == 1).fold(mask, |word, j| word ^ live[j]);
        let begun = taken & ones_before(t);
        (begun, continuations(words, t, begun))
    };
    (0..1 << live.len()).map(state).collect()
}

/// All branches of section t: state, bit, next state.
pub fn section(words: &BTreeSet<u64>, rows: &[u64], mask: u64, t: usize) -> Vec<(u64, u64, u64)> {
    let next = states(words, rows, mask, t + 1);
    let mut branches = Vec::new();
    for (number, (begun, _)) in states(words, rows, mask, t).iter().enumerate() {
        for digit in 0..2 {
            let ahead = continuations(words, t + 1, begun | digit << t);
            let mut same = (0..next.len()).filter(|&j| next[j].1 == ahead);
            if let (false, Some(to)) = (ahead.is_empty(), same.next()) {
                assert!(same.next().is_none(), "two states go on alike");
                branches.push((number as u64, digit, to as u64));
            }
        }
    }
    branches
}

/// The first position at which none of the words continues a word's beginning, and n where there is none below n.
pub fn stop(words: &BTreeSet<u64>, n: usize, word: u64) -> usize {
    let stops = |t: &usize| continuations(words, t + 1, word & ones_before(t + 1)).is_empty();
    (0..n).find(stops).unwrap_or(n)
}

/// The greatest metric of the words with a bit at a position.
pub fn best_with(words: &BTreeSet<u64>, samples: &[i16], position: usize, digit: u64) -> Option<i32> {
    words.iter().filter(|&&word| bit(word, position) == digit).map(|&word| metric(word, samples)).max()
}

/// The greatest metric of all words and the earliest word that has it.
pub fn best(words: &BTreeSet<u64>, samples: &[i16]) -> (i32, u64) {
    let found = words.iter().map(|&word| (metric(word, samples), word));
    let better = |a: (i32, u64), b: (i32, u64)| a.0 > b.0 || a.0 == b.0 && earlier(a.1, b.1);
    found.reduce(|best, next| if better(next, best) { next } else { best }).unwrap()
}
