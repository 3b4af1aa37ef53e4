//! How many codewords have each weight: by all words of the code, each one row away from the one before, or by all words of its dual
//! (MacWilliams), whichever are fewer.

use crate::call::Run;
use crate::linear::even_with_all;
use crate::model::{Model, DONE};
use crate::plate::{refuse, Plate, Refusal};

/// So many cells has the room for counts.
pub const COUNTS: usize = 65;
/// So many rows at most have their words gone through one by one.
const MOST_ROWS: usize = 30;

/// The working room that a plate needs.
pub fn working_needed(plate: &Plate) -> usize {
    130 << plate.widest()
}

/// The smaller of k and n - k: so many rows have their words gone through.
pub fn effort(plate: &Plate) -> usize {
    plate.k().min(plate.n - plate.k())
}

/// How many sums of independent rows have each weight, in Gray's order.
pub fn by_gray_order(rows: &[u64], n: usize) -> Vec<i128> {
    let mut counts = vec![0u64; n + 1];
    let mut word = 0u64;
    counts[0] = 1;
    for step in 1..1u64 << rows.len() {
        word ^= rows[step.trailing_zeros() as usize];
        counts[word.count_ones() as usize] += 1;
    }
    counts.into_iter().map(i128::from).collect()
}

/// The coefficients of (1 - x)^weight (1 + x)^(n - weight).
fn krawtchouk(n: usize, weight: usize) -> Vec<i128> {
    let mut product = vec![1i128];
    for i in 0..n {
        let sign = if i < weight { -1 } else { 1 };
        let mut next = vec![0; product.len() + 1];
        for (power, &coefficient) in product.iter().enumerate() {
            next[power] += coefficient;
            next[power + 1] += sign * coefficient;
        }
        product = next;
    }
    product
}

/// The weights of a code by those of its dual, whose independent rows these are.
pub fn by_dual(dual: &[u64], n: usize) -> Vec<i128> {
    let mut sums = vec![0i128; n + 1];
    for (weight, &number) in by_gray_order(dual, n).iter().enumerate().filter(|(_, &number)| number != 0) {
        for (power, &coefficient) in krawtchouk(n, weight).iter().enumerate() {
            sums[power] += number * coefficient;
        }
    }
    sums.iter().map(|sum| sum >> dual.len()).collect()
}

/// The weights of the code with these independent rows.
pub fn of_code(rows: &[u64], n: usize) -> Vec<i128> {
    let checks = even_with_all(rows, n);
    assert!(rows.len().min(checks.len()) <= MOST_ROWS, "too many words to go through");
    if rows.len() <= checks.len() {
        by_gray_order(rows, n)
    } else {
        by_dual(&checks, n)
    }
}

/// The smallest weight above 0 that some word has.
pub fn least(counts: &[i128]) -> Option<usize> {
    (1..counts.len()).find(|&weight| counts[weight] != 0)
}

/// Refusals 22 and 8.
fn refused(plate: &Plate, counts: usize, working: usize) -> Result<(), Refusal> {
    if plate.k() == 64 {
        return refuse(22, 0);
    }
    if counts < COUNTS || working < working_needed(plate) {
        return refuse(8, 0);
    }
    Ok(())
}

/// The model's reply to the call.
pub fn answer(model: &mut Model, runs: &mut [Run]) -> u64 {
    let [plate, counts, working, least_cell] = runs else { unreachable!("weights have four runs") };
    let accepted = model.plate(plate.words()).and_then(|plate| {
        refused(&plate, counts.length(), working.length())?;
        Ok(plate)
    });
    let plate = match accepted {
        Ok(plate) => plate,
        Err(refusal) => return refusal.number,
    };
    let found = of_code(&plate.rows, plate.n);
    let room = &mut counts.words()[..COUNTS];
    room.fill(0);
    for (cell, &count) in room.iter_mut().zip(&found) {
        *cell = count as u64;
    }
    working.words()[..working_needed(&plate)].fill(0);
    least_cell.words()[0] = least(&found).unwrap_or(0) as u64;
    DONE
}
