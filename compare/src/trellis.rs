//! The trellis by its meaning: a state at depth t is a class of beginnings of the plate's words that go on
//! alike, and beginnings go on alike exactly if their syndromes are equal.

use crate::linear::Basis;
use crate::plate::{refuse, Plate, Refusal};
use crate::words::{bit, ones_before};

/// The rows that begin before position t and end at t or after, in order of heads.
pub fn live_rows(plate: &Plate, t: usize) -> Vec<u64> {
    let live = |row: &&u64| {
        let before = ones_before(t);
        **row & before != 0 && **row & !before != 0
    };
    plate.rows.iter().filter(live).copied().collect()
}

/// What the live rows add to the syndrome of a beginning of length t.
fn live_syndromes(plate: &Plate, t: usize) -> Vec<u64> {
    let begun = |row: &u64| plate.syndrome(row & ones_before(t));
    live_rows(plate, t).iter().map(begun).collect()
}

/// The syndrome of the mask's beginning of length t: that of state 0.
fn masked_syndrome(plate: &Plate, t: usize) -> u64 {
    plate.syndrome(plate.mask & ones_before(t))
}

/// The state after a branch, or none; refusal 12 where there is nothing to leave from.
pub fn branch(plate: &Plate, depth: u64, state: u64, digit: u64) -> Result<Option<u64>, Refusal> {
    let n = plate.n as u64;
    if depth >= n || state >> plate.profile[depth as usize] != 0 || digit > 1 {
        return refuse(12, 0);
    }
    let depth = depth as usize;
    let here = live_syndromes(plate, depth);
    let taken = here.iter().enumerate().filter(|(j, _)| bit(state, *j) == 1);
    let begun = taken.fold(masked_syndrome(plate, depth), |sum, (_, part)| sum ^ part);
    let longer = begun ^ digit * plate.columns[depth];
    let mut next = Basis::new();
    for (j, &part) in live_syndromes(plate, depth + 1).iter().enumerate() {
        next.insert(part, j);
    }
    Ok(next.express(longer ^ masked_syndrome(plate, depth + 1)))
}
