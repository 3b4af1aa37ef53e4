//! Preparing by subcodes: everything is read off the columns of a parity check of the code.
//!
//! A word is a codeword exactly if the columns at its ones add up to zero. So codewords that are zero
//! outside a stretch of positions are the dependences among the columns of that stretch.

use crate::linear::{columns, even_with_all, Basis};
use crate::words::{bit, ones_before};

/// A refusal of the paper: its number and place. For a sheet's bad line the place is the line, and the field stands beside it.
#[derive(Clone, Copy, Debug, PartialEq, Eq)]
pub struct Refusal {
    pub number: u64,
    pub place: u64,
    pub field: u64,
}

pub fn refuse<T>(number: u64, place: usize) -> Result<T, Refusal> {
    Err(Refusal { number, place: place as u64, field: 0 })
}

#[derive(Clone, Copy, Debug, PartialEq, Eq)]
pub enum Kind {
    G,
    H,
}

pub const PLATE_WORDS: usize = 132;
const MASK_WORD: usize = 131;
pub const WIDEST: usize = 12;

/// A plate, with the columns of a parity check of its code beside it.
#[derive(Clone, Debug)]
pub struct Plate {
    pub n: usize,
    pub rows: Vec<u64>,
    pub profile: Vec<usize>,
    pub mask: u64,
    pub columns: Vec<u64>,
}

impl Plate {
    pub fn k(&self) -> usize {
        self.rows.len()
    }

    /// m, the largest profile entry.
    pub fn widest(&self) -> usize {
        *self.profile.iter().max().unwrap()
    }

    pub fn metrics_needed(&self) -> usize {
        2 << self.widest()
    }

    pub fn decisions_needed(&self) -> usize {
        self.n * usize::max(1, (1 << self.widest()) / 64)
    }

    /// The sum of the columns at a word's ones: zero exactly for a word of the code.
    pub fn syndrome(&self, word: u64) -> u64 {
        (0..self.n).filter(|&i| bit(word, i) == 1).fold(0, |sum, i| sum ^ self.columns[i])
    }

    /// The syndrome that all words of the plate have: a word has it exactly if it is a codeword plus the mask.
    pub fn syndrome_of_words(&self) -> u64 {
        self.syndrome(self.mask)
    }

    pub fn is_word(&self, word: u64) -> bool {
        word & !ones_before(self.n) == 0 && self.syndrome(word) == self.syndrome_of_words()
    }

    /// The run of 132 words, the mask last, as which a plate crosses the interface.
    pub fn flat(&self) -> Vec<u64> {
        let mut words = vec![0; PLATE_WORDS];
        words[0] = self.n as u64;
        words[1] = self.k() as u64;
        words[2..2 + self.k()].copy_from_slice(&self.rows);
        for (cell, &entry) in words[66..].iter_mut().zip(&self.profile) {
            *cell = entry as u64;
        }
        words[MASK_WORD] = self.mask;
        words
    }

    /// The plate that a flat run is, if preparing its own first k rows with its own mask gives that run.
    pub fn from_flat(words: &[u64]) -> Option<Plate> {
        let k = usize::try_from(words[1]).ok().filter(|&k| k <= 64)?;
        let plate = prepare_masked(words[0], Kind::G, &words[2..2 + k], words[MASK_WORD]).ok()?;
        (plate.flat() == words).then_some(plate)
    }
}

/// Columns of a parity check of the code, or the refusal (1 to 3) of the matrix.
pub fn check_columns(n: u64, kind: Kind, rows: &[u64]) -> Result<Vec<u64>, Refusal> {
    if n == 0 || n > 64 {
        return refuse(1, 0);
    }
    let n = n as usize;
    if rows.len() > 64 {
        return refuse(2, 0);
    }
    if let Some(place) = rows.iter().position(|row| row & !ones_before(n) != 0) {
        return refuse(3, place);
    }
    Ok(match kind {
        Kind::G => columns(&even_with_all(rows, n), n),
        Kind::H => columns(rows, n),
    })
}

/// How many dimensions the first 0, 1, .. of these columns leave dependent: the dimension of the
/// codewords that are zero outside of them.
fn dependent<'a>(columns: impl Iterator<Item = &'a u64>) -> Vec<usize> {
    let mut basis = Basis::new();
    let mut counts = vec![0];
    for (taken, &column) in columns.enumerate() {
        basis.insert(column, 0);
        counts.push(taken + 1 - basis.rank());
    }
    counts
}

/// s(t): k, less the dimension of codewords zero from t on, less that of codewords zero before t.
pub fn profile(columns: &[u64]) -> Vec<usize> {
    let n = columns.len();
    let zero_from = dependent(columns.iter());
    let zero_before = dependent(columns.iter().rev());
    (0..=n).map(|t| zero_from[n] - zero_from[t] - zero_before[n - t]).collect()
}

/// The last one of the plate row that begins at `head`, if this is a head: the first position such
/// that the columns after the head up to there add up to the head's own.
fn soonest_last(columns: &[u64], head: usize) -> Option<usize> {
    let mut basis = Basis::new();
    (head..columns.len()).find(|&last| {
        if last > head {
            basis.insert(columns[last], 0);
        }
        basis.express(columns[head]).is_some()
    })
}

/// The earliest codeword from `head` to `last`: columns are taken in from the far end, so that one
/// which is a sum of later ones is never used, and the expression by the others is the only one.
fn earliest(columns: &[u64], head: usize, last: usize) -> u64 {
    let mut basis = Basis::new();
    for position in (head + 1..=last).rev() {
        basis.insert(columns[position], position);
    }
    1 << head | basis.express(columns[head]).unwrap()
}

/// The plate of a matrix without a mask.
pub fn prepare(n: u64, kind: Kind, rows: &[u64]) -> Result<Plate, Refusal> {
    prepare_masked(n, kind, rows, 0)
}

pub fn prepare_masked(n: u64, kind: Kind, rows: &[u64], mask: u64) -> Result<Plate, Refusal> {
    let columns = check_columns(n, kind, rows)?;
    if mask & !ones_before(columns.len()) != 0 {
        return refuse(23, 0);
    }
    let profile = profile(&columns);
    if let Some(depth) = profile.iter().position(|&entry| entry > WIDEST) {
        return refuse(4, depth);
    }
    let row = |head| soonest_last(&columns, head).map(|last| earliest(&columns, head, last));
    let rows = (0..columns.len()).filter_map(row).collect();
    Ok(Plate { n: columns.len(), rows, profile, mask, columns })
}
