//! Words by position, as the paper writes them.

/// The digit of a word at a position.
pub fn bit(word: u64, position: usize) -> u64 {
    word >> position & 1
}

/// The word with ones at all positions before `n` (0 to 64).
pub fn ones_before(n: usize) -> u64 {
    if n == 64 {
        u64::MAX
    } else {
        (1 << n) - 1
    }
}

/// Whether `a` has 0 at the first position where the two differ.
pub fn earlier(a: u64, b: u64) -> bool {
    (0..64).find(|&i| bit(a, i) != bit(b, i)).is_some_and(|i| bit(a, i) == 0)
}

/// The first `n` positions as characters, position 0 at the left.
pub fn printed(word: u64, n: usize) -> String {
    (0..n).map(|i| if bit(word, i) == 1 { '1' } else { '0' }).collect()
}

/// Adds the sample where the bit is 0 and subtracts it where the bit is 1.
pub fn metric(word: u64, samples: &[i16]) -> i32 {
    let signed = |(i, &y): (usize, &i16)| {
        if bit(word, i) == 0 {
            i32::from(y)
        } else {
            -i32::from(y)
        }
    };
    samples.iter().enumerate().map(signed).sum()
}
