//! Random numbers, matrices of many shapes, and samples.

use crate::words::ones_before;

pub struct Random(u64);

impl Random {
    pub fn new(seed: u64) -> Random {
        Random(seed.wrapping_mul(0x9e37_79b9_7f4a_7c15) | 1)
    }

    pub fn next(&mut self) -> u64 {
        self.0 ^= self.0 << 13;
        self.0 ^= self.0 >> 7;
        self.0 ^= self.0 << 17;
        self.0.wrapping_mul(0x2545_f491_4f6c_dd1d)
    }

    pub fn below(&mut self, bound: usize) -> usize {
        ((self.next() >> 32) * bound as u64 >> 32) as usize
    }

    /// True once in so many times.
    pub fn one_in(&mut self, times: usize) -> bool {
        self.below(times) == 0
    }

    pub fn pick<T: Copy>(&mut self, among: &[T]) -> T {
        among[self.below(among.len())]
    }

    pub fn word(&mut self, n: usize) -> u64 {
        self.next() & ones_before(n)
    }
}

/// A matrix and a mask as they are given to `prepare`.
#[derive(Clone, Debug)]
pub struct Matrix {
    pub n: u64,
    pub kind: u64,
    pub rows: Vec<u64>,
    pub mask: u64,
}

/// Rows that reach over at most `width` depths: mostly as wide as that, since each position begins one.
fn windows(random: &mut Random, n: usize, width: usize) -> Vec<u64> {
    let skip = random.pick(&[2, 5, 1000]);
    let begins = (0..n).filter(|_| !random.one_in(skip)).collect::<Vec<_>>();
    let row = |head: usize| {
        let last = (head + width).min(n - 1);
        (random.next() << head & ones_before(last)) | 1 << head | 1 << last
    };
    begins.into_iter().map(row).collect()
}

/// Pairs of ones around the middle, one inside the other.
fn nested(random: &mut Random, n: usize, width: usize) -> Vec<u64> {
    let pair = |i: usize| {
        1 << i | 1 << (n - 1 - i) | random.next() & random.next() & ones_before(n - 1 - i) & !ones_before(i)
    };
    (0..width.min(n / 2)).map(pair).collect()
}

/// Ones at i and i + width, as in the paper's widest plate, in stretches beside each other.
fn repeated(n: usize, width: usize) -> Vec<u64> {
    let width = width.max(1);
    let begins = (0..n).filter(|i| i / width % 2 == 0 && i + width < n);
    begins.map(|i| 1 << i | 1 << (i + width)).collect()
}

/// The same code from other rows: sums of rows, zero rows and repeated rows among them.
fn disguised(random: &mut Random, mut rows: Vec<u64>) -> Vec<u64> {
    for _ in 0..3 * rows.len() {
        let (i, j) = (random.below(rows.len()), random.below(rows.len()));
        if i != j {
            rows[i] ^= rows[j];
        }
    }
    while rows.len() < 64 && random.one_in(2) {
        let sum =
            if rows.is_empty() { 0 } else { rows[random.below(rows.len())] ^ rows[random.below(rows.len())] };
        rows.insert(random.below(rows.len() + 1), sum);
    }
    rows
}

/// A matrix that is in order: only refusal 4 can meet it.
pub fn matrix(random: &mut Random) -> Matrix {
    let n = if random.one_in(3) { 64 - random.below(3) } else { 1 + random.below(64) };
    let width = random.below(15);
    let rows = match random.below(6) {
        0..=2 => windows(random, n, width),
        3 => nested(random, n, width),
        4 => repeated(n, width),
        _ => (0..width).map(|_| random.word(n)).collect(),
    };
    let rows = if random.one_in(4) { rows } else { disguised(random, rows) };
    let mask = if random.one_in(3) { 0 } else { random.word(n) };
    Matrix { n: n as u64, kind: random.next() % 2, rows, mask }
}

/// Sets the faults of refusals 1 to 3 and 23 into a matrix.
pub fn spoiled(random: &mut Random, mut matrix: Matrix) -> Matrix {
    if random.one_in(3) {
        matrix.n = random.pick(&[0, 65, 66, 128, 1 << 32, u64::MAX]);
    }
    if random.one_in(2) {
        let count = random.pick(&[64, 65, 66, 100]);
        matrix.rows.resize(count, 1);
    }
    if random.one_in(2) && matrix.n < 64 && !matrix.rows.is_empty() {
        let at = random.below(matrix.rows.len());
        matrix.rows[at] |= 1 << random.pick(&[matrix.n, 63]);
    }
    if random.one_in(2) && matrix.n < 64 {
        matrix.mask |= 1 << random.pick(&[matrix.n, 63]);
    }
    matrix
}

/// Samples of many tempers: all ties, extremes, sparse, or any.
pub fn samples(random: &mut Random, n: usize) -> Vec<i16> {
    let temper = random.below(5);
    let mut one = |_| match temper {
        0 => random.pick(&[-1, 0, 1]),
        1 => random.pick(&[-2047, 2047]),
        2 => random.pick(&[0, 0, 0, 5, -5]),
        3 => random.pick(&[-2, -1, 1, 2]),
        _ => random.below(4095) as i16 - 2047,
    };
    (0..n).map(&mut one).collect()
}
