//! Linear algebra modulo 2 on 64-bit vectors: a basis that remembers which inputs it was made of.

use crate::words::bit;

/// Independent vectors, at most one for each highest digit, each with the names of the inputs whose
/// sum it is (a word with a one for each name).
#[derive(Clone)]
pub struct Basis {
    by_top: [(u64, u64); 64],
    rank: usize,
}

impl Basis {
    pub fn new() -> Basis {
        Basis { by_top: [(0, 0); 64], rank: 0 }
    }

    /// What is left of a vector once the basis has cancelled what it can, and the names used.
    fn reduce(&self, mut vector: u64) -> (u64, u64) {
        let mut names = 0;
        while vector != 0 {
            let (member, of) = self.by_top[vector.ilog2() as usize];
            if member == 0 {
                break;
            }
            vector ^= member;
            names ^= of;
        }
        (vector, names)
    }

    /// Takes in a vector under a name (0 to 63), unless it is a sum of those before it.
    pub fn insert(&mut self, vector: u64, name: usize) -> bool {
        let (left, names) = self.reduce(vector);
        if left != 0 {
            self.by_top[left.ilog2() as usize] = (left, names ^ 1 << name);
            self.rank += 1;
        }
        left != 0
    }

    /// The names of the inputs taken in whose sum is the vector, if it is such a sum.
    pub fn express(&self, vector: u64) -> Option<u64> {
        let (left, names) = self.reduce(vector);
        (left == 0).then_some(names)
    }

    pub fn rank(&self) -> usize {
        self.rank
    }
}

/// A basis of the words of length `n` that are even with every row: Gauss and Jordan from the far
/// end, then one word for each position that is no pivot.
pub fn even_with_all(rows: &[u64], n: usize) -> Vec<u64> {
    let mut reduced: Vec<u64> = Vec::new();
    let mut pivots: Vec<usize> = Vec::new();
    let mut left: Vec<u64> = rows.to_vec();
    for position in (0..n).rev() {
        let Some(at) = left.iter().position(|&row| bit(row, position) == 1) else {
            continue;
        };
        let pivot = left.swap_remove(at);
        for row in left.iter_mut().chain(reduced.iter_mut()) {
            if bit(*row, position) == 1 {
                *row ^= pivot;
            }
        }
        reduced.push(pivot);
        pivots.push(position);
    }
    let free = (0..n).filter(|position| !pivots.contains(position));
    free.map(|position| {
        let follows = |(row, &pivot): (&u64, &usize)| bit(*row, position) << pivot;
        reduced.iter().zip(&pivots).map(follows).fold(1 << position, |word, one| word | one)
    })
    .collect()
}

/// The columns of a matrix: digit i of column j is position j of row i.
pub fn columns(rows: &[u64], n: usize) -> Vec<u64> {
    let column = |j| rows.iter().enumerate().map(|(i, &row)| bit(row, j) << i).sum();
    (0..n).map(column).collect()
}
